//! A call on the archive and on the second program, and the comparison.

pub use crate::call::{Call, Named};
use crate::lent::Lent;
use crate::notation::hex;
use crate::report::lines;
use second::ffi;
use second::part::Part;
use second::receive::Received;

/// All that a call gives: what it returns, the whole buffer, the whole table.
#[derive(Clone, Debug, PartialEq, Eq)]
pub struct Facts {
    pub received: ffi::Received,
    pub value: u8,
    pub buffer: Vec<u8>,
    pub table: Vec<u8>,
}

impl Facts {
    pub fn code(&self) -> u8 {
        self.received.code
    }

    /// What is to be sent.
    pub fn reply(&self) -> &[u8] {
        &self.buffer[..self.received.written]
    }
}

/// The pattern that a lent buffer holds before the call, at most 300 octets.
pub fn pattern(room: usize) -> &'static [u8] {
    &PATTERN[..room]
}

static PATTERN: [u8; 300] = {
    let mut octets = [0; 300];
    let mut i = 0;
    while i < octets.len() {
        octets[i] = (i * 37 % 251) as u8 ^ 0xA5;
        i += 1;
    }
    octets
};

/// What guards a slice that is lent.
const GUARD: u8 = 0xD3;

/// The call on both, from this table and a buffer of this length; they agree.
pub fn compare(table: &[u8], call: &Call, room: usize) -> Facts {
    let archive = on_archive(table, call, pattern(room));
    let second = on_second(table, call, pattern(room));
    if archive != second {
        report(table, call, room, &archive, &second);
        panic!("they differ");
    }
    archive
}

/// The same for a received message.
pub fn compare_message(table: &[u8], message: &[u8], room: usize) -> Facts {
    let archive = received_by_archive(table, message, pattern(room));
    let second = received_by_second(table, message, pattern(room));
    if archive != second {
        let call = Call::Receive(message.to_vec());
        report(table, &call, room, &archive, &second);
        panic!("they differ");
    }
    archive
}

fn on_archive(table: &[u8], call: &Call, buffer: &[u8]) -> Facts {
    lend(table, buffer, |t, b| match call {
        Call::Receive(message) => (ffi::receive(t, message, b), 0),
        Call::Begin(operation, id, p) => local(ffi::begin(t, *operation, *id, p, b)),
        Call::Invoke(n, operation, id, p) => local(ffi::invoke(t, *n, *operation, *id, p, b)),
        Call::Result(n, id, p) => local(ffi::result(t, *n, *id, p, b)),
        Call::Error(n, id, code, p) => local(ffi::error(t, *n, *id, *code, p, b)),
        Call::Release(n) => local(ffi::release(t, *n, b)),
    })
}

fn received_by_archive(table: &[u8], message: &[u8], buffer: &[u8]) -> Facts {
    lend(table, buffer, |t, b| (ffi::receive(t, message, b), 0))
}

/// Lends the table and the buffer to a call of the archive.
fn lend(
    table: &[u8],
    buffer: &[u8],
    call: impl FnOnce(&mut [u8], &mut [u8]) -> (ffi::Received, u8),
) -> Facts {
    let mut table = Lent::new(table, GUARD);
    let mut buffer = Lent::new(buffer, GUARD);
    let (received, value) = call(table.slice(), buffer.slice());
    Facts {
        received,
        value,
        buffer: buffer.back(),
        table: table.back(),
    }
}

pub fn on_second(table: &[u8], call: &Call, b: &[u8]) -> Facts {
    if let Call::Receive(message) = call {
        return received_by_second(table, message, b);
    }
    let called = call.called(table, b).expect("a local call");
    let (received, value) = local((&called).into());
    Facts {
        received,
        value,
        buffer: called.buffer,
        table: called.table,
    }
}

fn received_by_second(table: &[u8], message: &[u8], buffer: &[u8]) -> Facts {
    let received = second::receive(table, message, buffer);
    check_parts(&received, message);
    Facts {
        received: (&received).into(),
        value: 0,
        buffer: received.buffer,
        table: received.table,
    }
}

fn local(called: ffi::Called) -> (ffi::Received, u8) {
    let received = ffi::Received {
        code: called.code,
        written: called.written,
        ..ffi::Received::default()
    };
    (received, called.value)
}

/// The second program's own octets are those of their places.
fn check_parts(received: &Received, message: &[u8]) {
    let at_place = |p: &Part| message[p.start..p.end()] == p.octets[..];
    if let Some(shown) = &received.shown {
        assert!(at_place(&shown.parameter));
        let text = shown.text.as_ref();
        assert!(text.is_none_or(|t| at_place(&t.string) && at_place(&t.tail)));
    }
    assert!(received.cause.as_ref().is_none_or(at_place));
}

/// The exact input and both outcomes, in lines of at most forty characters.
fn report(table: &[u8], call: &Call, room: usize, archive: &Facts, second: &Facts) {
    println!("| they differ, buffer {room}");
    lines("table", &hex(table));
    match call {
        Call::Receive(message) => lines("receive", &hex(message)),
        _ => lines("call", &format!("{call:?}")),
    }
    if let Some(parameter) = call.parameter() {
        lines("parameter", &hex(parameter));
    }
    for (name, facts) in [("archive", archive), ("second", second)] {
        lines(name, &format!("{:?}", facts.received));
        println!("| value {}", facts.value);
        lines("buffer after", &hex(&facts.buffer));
        lines("table after", &hex(&facts.table));
    }
}
