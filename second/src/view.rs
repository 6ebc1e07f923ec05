//! Our outcomes in the form of the C structs: parts as places, 0 for none.

use crate::batch::Batched;
use crate::call::Called;
use crate::cells::Laid;
use crate::component::{Answer, Component};
use crate::ffi;
use crate::parameter::Text;
use crate::part::Part;
use crate::receive::{Received, Shown};
use crate::trace::calls::Traced;

impl From<&Part> for ffi::Span {
    fn from(part: &Part) -> ffi::Span {
        ffi::Span {
            start: part.start,
            end: part.end(),
        }
    }
}

impl From<&Component> for ffi::Component {
    fn from(component: &Component) -> ffi::Component {
        let none = ffi::Component::default();
        match *component {
            Component::Invoke {
                id,
                linked,
                operation,
                ..
            } => ffi::Component {
                kind: 0xA1,
                has_id: 1,
                id,
                has_linked: linked.is_some().into(),
                linked: linked.unwrap_or(0),
                has_operation: 1,
                operation,
                ..none
            },
            Component::ReturnResult { id, ref answer } => ffi::Component {
                kind: 0xA2,
                has_id: 1,
                id,
                has_operation: answer.is_some().into(),
                operation: answer.as_ref().map_or(0, |a: &Answer| a.operation),
                ..none
            },
            Component::ReturnError { id, code, .. } => ffi::Component {
                kind: 0xA3,
                has_id: 1,
                id,
                code,
                ..none
            },
            Component::Reject { id, tag, problem } => ffi::Component {
                kind: 0xA4,
                has_id: id.is_some().into(),
                id: id.unwrap_or(0),
                tag,
                problem,
                ..none
            },
        }
    }
}

impl From<&Shown> for ffi::Component {
    fn from(shown: &Shown) -> ffi::Component {
        ffi::Component {
            parameter: (&shown.parameter).into(),
            ..(&shown.component).into()
        }
    }
}

impl From<&Text> for ffi::Text {
    fn from(text: &Text) -> ffi::Text {
        ffi::Text {
            is_there: 1,
            scheme: text.scheme,
            string: (&text.string).into(),
            tail: (&text.tail).into(),
        }
    }
}

impl From<&Received> for ffi::Received {
    fn from(received: &Received) -> ffi::Received {
        let shown = received.shown.as_deref();
        let text = shown.and_then(|s| s.text.as_ref());
        let cause = received.cause.as_ref().map(|part| ffi::Cause {
            is_there: 1,
            contents: part.into(),
        });
        ffi::Received {
            code: received.code,
            written: received.reply.len(),
            shown: shown.map(Into::into).unwrap_or_default(),
            text: text.map(Into::into).unwrap_or_default(),
            cause: cause.unwrap_or_default(),
        }
    }
}

impl From<&Called> for ffi::Called {
    fn from(called: &Called) -> ffi::Called {
        ffi::Called {
            code: called.code,
            value: called.value,
            written: called.message.len(),
        }
    }
}

impl From<&Batched> for ffi::Batched {
    fn from(batched: &Batched) -> ffi::Batched {
        ffi::Batched {
            code: batched.code,
            slots: batched.slots.len(),
        }
    }
}

impl From<&Laid> for ffi::Laid {
    fn from(laid: &Laid) -> ffi::Laid {
        ffi::Laid {
            code: laid.code,
            characters: laid.text.len(),
            lines: laid.line_count(),
        }
    }
}

impl From<&Traced> for ffi::Traced {
    fn from(traced: &Traced) -> ffi::Traced {
        ffi::Traced {
            code: traced.code,
            added: traced.added.into(),
        }
    }
}
