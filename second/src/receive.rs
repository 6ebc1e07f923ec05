//! Verdicts on a received message.

use crate::component::{Component, Fault, Problem};
use crate::message::{self, Type};
use crate::parameter::Text;
use crate::part::Part;
use crate::step6;
use crate::table::{Entry, Open, Table, Transaction};
use crate::write;

/// "reply buffer under 12 octets"
const LEAST_BUFFER: usize = 12;

/// What a received message gives.
#[derive(Clone, Debug, PartialEq, Eq)]
pub struct Received {
    /// A verdict, 0 to 7, or the refusal 27 or 28.
    pub code: u8,
    pub reply: Vec<u8>,
    pub shown: Option<Box<Shown>>,
    pub cause: Option<Part>,
    /// The buffer after.
    pub buffer: Vec<u8>,
    /// The table after.
    pub table: Vec<u8>,
}

#[derive(Clone, Debug, PartialEq, Eq)]
pub struct Shown {
    pub component: Component,
    /// Empty, at the end of the Facility value, if there is none.
    pub parameter: Part,
    pub text: Option<Text>,
}

/// The verdicts, with what each needs.
#[derive(Clone, Debug, PartialEq, Eq)]
enum Verdict {
    Taken(Transaction, Open, Option<Box<Shown>>),
    Ignored,
    Cause(Transaction, u8),
    Problem(Transaction, Option<i8>, Problem),
    RejectReceived(Transaction, Option<Box<Shown>>),
    ReleasedByNetwork(Transaction, Option<Box<Shown>>, Option<Part>),
    TooLong,
    OtherProtocol,
}

/// "First 28, then 27 (reply buffer under 12 octets), then" the steps.
pub fn receive(image: &[u8], message: &[u8], buffer: &[u8]) -> Received {
    let Some(table) = Table::decode(image) else {
        return unchanged(28, image, buffer);
    };
    if buffer.len() < LEAST_BUFFER {
        return unchanged(27, image, buffer);
    }
    match decide(&table, message) {
        Verdict::Ignored => unchanged(1, image, buffer),
        Verdict::TooLong => unchanged(6, image, buffer),
        Verdict::OtherProtocol => unchanged(7, image, buffer),
        verdict => carry_out(verdict, table, buffer),
    }
}

fn unchanged(code: u8, image: &[u8], buffer: &[u8]) -> Received {
    Received {
        code,
        reply: Vec::new(),
        shown: None,
        cause: None,
        buffer: buffer.to_vec(),
        table: image.to_vec(),
    }
}

/// What is sent, and the table, by the list of verdicts.
fn carry_out(verdict: Verdict, mut table: Table, buffer: &[u8]) -> Received {
    let mut shows = None;
    let mut handed_back = None;
    let (code, transaction, entry, reply) = match verdict {
        Verdict::Taken(t, open, shown) => {
            shows = shown;
            (0, t, Entry::Open(open), Vec::new())
        }
        Verdict::Cause(t, cause) => (2, t, Entry::Closed, write::release_with_cause(t, cause)),
        Verdict::Problem(t, id, problem) => {
            let reply = write::release_with_reject(t, id, problem);
            (3, t, Entry::Closed, reply)
        }
        Verdict::RejectReceived(t, shown) => {
            shows = shown;
            (4, t, Entry::Closed, write::release(t))
        }
        Verdict::ReleasedByNetwork(t, shown, cause) => {
            shows = shown;
            handed_back = cause;
            (5, t, Entry::Closed, Vec::new())
        }
        Verdict::Ignored | Verdict::TooLong | Verdict::OtherProtocol => {
            unreachable!("nothing to carry out")
        }
    };
    table.set(transaction, entry);
    Received {
        code,
        buffer: write::lay(&reply, buffer),
        reply,
        shown: shows,
        cause: handed_back,
        table: table.encode(),
    }
}

/// "Verdicts on a received message, in order"
fn decide(table: &Table, message: &[u8]) -> Verdict {
    steps(table, message).unwrap_or_else(|verdict| verdict)
}

fn steps(table: &Table, message: &[u8]) -> Result<Verdict, Verdict> {
    let (first, second) = step1(message)?;
    let kind = Type::of(second);
    let (transaction, entry) = step2(table, first, kind)?;
    let open = step3(transaction, entry, kind)?;
    let message = Part::whole(message);
    let facility = match kind {
        Type::ReleaseComplete => return Ok(released(transaction, open, &message)),
        Type::Register => message::register(&message),
        _ => message::facility(&message),
    };
    // Step 4: "Mandatory part missing or cut, or the comprehension rule: cause 96."
    let facility = facility.ok_or(Verdict::Cause(transaction, 96))?;
    let (open, shown) =
        steps_5_and_6(&facility, open).map_err(|fault| ending(transaction, fault))?;
    Ok(match is_reject(&shown) {
        true => Verdict::RejectReceived(transaction, shown),
        false => Verdict::Taken(transaction, open, shown),
    })
}

fn is_reject(shown: &Option<Box<Shown>>) -> bool {
    let component = shown.as_ref().map(|s| &s.component);
    matches!(component, Some(Component::Reject { .. }))
}

/// "Over 255 octets: verdict 6. Under 2: verdict 1. Discriminator not 11:
/// verdict 7."
fn step1(message: &[u8]) -> Result<(u8, u8), Verdict> {
    if message.len() > message::LONGEST {
        return Err(Verdict::TooLong);
    }
    let &[first, second, ..] = message else {
        return Err(Verdict::Ignored);
    };
    match first & 0x0F {
        message::DISCRIMINATOR => Ok((first, second)),
        _ => Err(Verdict::OtherProtocol),
    }
}

/// "Value 7: verdict 1. Entry not open: RELEASE COMPLETE, or REGISTER with flag
/// 1, verdict 1; FACILITY, cause 81."
fn step2(table: &Table, first: u8, kind: Type) -> Result<(Transaction, Entry), Verdict> {
    let named = Transaction::named(first >> 7, first >> 4 & 7);
    let transaction = named.ok_or(Verdict::Ignored)?;
    let entry = table.entry(transaction);
    match (entry, kind) {
        (Entry::Closed, Type::ReleaseComplete) => Err(Verdict::Ignored),
        (Entry::Closed, Type::Register) if transaction.flag == 1 => Err(Verdict::Ignored),
        (Entry::Closed, Type::Facility) => Err(Verdict::Cause(transaction, 81)),
        _ => Ok((transaction, entry)),
    }
}

/// "Unknown type: cause 97. REGISTER on an open entry: cause 98." The entry, for
/// a REGISTER the one that it opens.
fn step3(transaction: Transaction, entry: Entry, kind: Type) -> Result<Open, Verdict> {
    match (kind, entry) {
        (Type::Unknown, _) => Err(Verdict::Cause(transaction, 97)),
        (Type::Register, Entry::Open(_)) => Err(Verdict::Cause(transaction, 98)),
        (_, Entry::Open(open)) => Ok(open),
        (_, Entry::Closed) => Ok(Open::default()),
    }
}

/// "Steps 5 and 6 run for RELEASE COMPLETE too, always with verdict 5; on a
/// fault, or an Invoke, nothing is shown."
fn released(transaction: Transaction, open: Open, message: &Part) -> Verdict {
    let release = message::release(message);
    let facility = release.facility.unwrap_or_default();
    let shown = match steps_5_and_6(&facility, open) {
        Ok((_, Some(shown))) if !matches!(shown.component, Component::Invoke { .. }) => Some(shown),
        _ => None,
    };
    Verdict::ReleasedByNetwork(transaction, shown, release.cause)
}

/// The entry after, and what is shown.
fn steps_5_and_6(facility: &Part, open: Open) -> Result<(Open, Option<Box<Shown>>), Fault> {
    let Some(component) = Component::read(facility)? else {
        return Ok((open, None));
    };
    let open = step6::weigh(&component, open)?;
    Ok((open, Some(Box::new(show(component, facility)))))
}

fn show(component: Component, facility: &Part) -> Shown {
    let none = Part::empty_at(facility.end());
    let parameter = component.parameter().map(|e| e.whole.clone());
    Shown {
        text: step6::text(&component),
        parameter: parameter.unwrap_or(none),
        component,
    }
}

fn ending(transaction: Transaction, fault: Fault) -> Verdict {
    match fault {
        Fault::OctetsLeft => Verdict::Cause(transaction, 29),
        Fault::InReject => Verdict::RejectReceived(transaction, None),
        Fault::Problem(id, problem) => Verdict::Problem(transaction, id, problem),
    }
}
