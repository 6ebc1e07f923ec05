//! Later editions: elements appended to a text that is shown.

use crate::both::{compare, Call, Facts};
use crate::chance::Chance;
use crate::parameters as p;
use crate::tables::{self, Entry, CLOSED, PLACES};
use second::ffi::Span;

const REGISTER: u8 = 0x3B;
const FACILITY: u8 = 0x3A;
const RELEASE_COMPLETE: u8 = 0x2A;
const INVOKE: u8 = 0xA1;
const RESULT: u8 = 0xA2;
/// Messages of each kind.
const TIMES: u64 = 20_000;

/// A message whose component carries a text, in pieces.
struct Sent {
    head: u8,
    kind: u8,
    /// Information elements before the Facility, in RELEASE COMPLETE.
    before: Vec<u8>,
    outer: u8,
    id: Vec<u8>,
    operation: Vec<u8>,
    scheme_and_string: Vec<u8>,
    tail: Vec<u8>,
    after: Vec<u8>,
}

impl Sent {
    /// The message with more in its tail, the enclosing lengths in this form.
    fn written(&self, more: &[u8], mut form: impl FnMut(usize) -> Vec<u8>) -> Vec<u8> {
        let mut element = |tag: u8, contents: Vec<u8>| {
            let length = form(contents.len());
            [vec![tag], length, contents].concat()
        };
        let text = [&self.scheme_and_string, &self.tail, more].concat();
        let parameter = element(0x30, text);
        let operation = [&self.operation[..], &parameter].concat();
        let inside = match self.outer {
            INVOKE => operation,
            _ => element(0x30, operation),
        };
        let value = element(self.outer, [&self.id[..], &inside].concat());
        let mut message = [&[self.head, self.kind], &self.before[..]].concat();
        if self.kind != FACILITY {
            message.push(0x1C);
        }
        message.push(value.len() as u8);
        message.extend(value);
        message.extend(&self.after);
        message
    }
}

/// How many stayed within 255 octets, and how many passed them.
#[derive(Default)]
struct Count {
    within: u64,
    past: u64,
}

#[test]
fn invokes_in_register() {
    many(1, REGISTER, INVOKE);
}

#[test]
fn invokes_in_facility() {
    many(2, FACILITY, INVOKE);
}

#[test]
fn results_in_facility() {
    many(3, FACILITY, RESULT);
}

#[test]
fn results_in_release_complete() {
    many(4, RELEASE_COMPLETE, RESULT);
}

fn many(seed: u64, kind: u8, outer: u8) {
    let mut count = Count::default();
    for time in 0..TIMES {
        let mut c = Chance::new(seed * 1_000_000 + time);
        one(&mut c, kind, outer, &mut count);
    }
    println!("within {}, past {}", count.within, count.past);
    assert!(count.within > TIMES / 4 && count.past > TIMES / 50);
}

fn one(c: &mut Chance, kind: u8, outer: u8, count: &mut Count) {
    let (sent, table) = sent(c, kind, outer);
    let room = c.range(12, 300);
    let old = sent.written(&[], |n| p::length(c, n));
    if old.len() > 255 {
        check_past(c, &table, old, room, sent.before.len());
        return;
    }
    let facts = compare(&table, &Call::Receive(old.clone()), room);
    let verdict = if kind == RELEASE_COMPLETE { 5 } else { 0 };
    assert_eq!(facts.code(), verdict);
    assert_eq!(facts.received.text.is_there, 1, "the text is shown");

    let elements = c.below(6);
    let longest = c.pick(&[0, 3, 10, 60, 255, 300]);
    let more = p::row(c, elements, longest);
    let new = sent.written(&more, p::shortest);
    if new.len() > 255 {
        count.past += 1;
        check_past(c, &table, new, room, sent.before.len());
        return;
    }
    count.within += 1;
    let later = compare(&table, &Call::Receive(new.clone()), room);
    assert_eq!(what_stays(&facts, &old), what_stays(&later, &new));
    let tail = [tail(&facts, &old), more].concat();
    assert_eq!(tail, self::tail(&later, &new), "old tail, then the octets");
}

/// "a message past 255 is refused as too long, however its lengths are written"
fn check_past(c: &mut Chance, table: &[u8], mut message: Vec<u8>, room: usize, before: usize) {
    if c.flip() {
        let at = 2 + before + usize::from(message[1] != FACILITY);
        message[at] = c.octet();
    }
    let facts = compare(table, &Call::Receive(message), room);
    let nothing = second::ffi::Received {
        code: 6,
        ..Default::default()
    };
    assert_eq!(facts.received, nothing);
    assert_eq!(facts.table, table);
    assert_eq!(facts.buffer, crate::both::pattern(room));
}

/// Verdict, identifiers, operation, scheme, string, reply and buffer, table,
/// cause: all that a later edition must leave as it is.
fn what_stays(facts: &Facts, message: &[u8]) -> impl PartialEq + std::fmt::Debug {
    let received = &facts.received;
    let shown = second::ffi::Component {
        parameter: Span::default(),
        ..received.shown
    };
    let cause = &received.cause;
    (
        (received.code, shown, received.text.is_there),
        (received.text.scheme, octets(message, received.text.string)),
        (received.written, facts.buffer.clone()),
        facts.table.clone(),
        (cause.is_there, octets(message, cause.contents)),
    )
}

fn tail(facts: &Facts, message: &[u8]) -> Vec<u8> {
    octets(message, facts.received.text.tail)
}

fn octets(message: &[u8], span: Span) -> Vec<u8> {
    message[span.start..span.end].to_vec()
}

/// A message that shows a text, and a table that suits it.
fn sent(c: &mut Chance, kind: u8, outer: u8) -> (Sent, Vec<u8>) {
    let flag = match outer {
        RESULT => c.below(2) as u8,
        _ if kind == REGISTER => 0,
        _ => c.below(2) as u8,
    };
    let value = c.below(7) as u8;
    let id = c.id();
    let operation = match outer {
        RESULT => 59,
        _ => c.pick(&[60, 61]),
    };
    let mut table = tables::random(c);
    let entry = entry(c, kind, outer, id);
    tables::put(&mut table, (flag, value), entry);

    let length = p::string_length(c);
    let string = c.octets(length);
    let scheme = c.octets(1);
    let elements = c.pick(&[0, 0, 0, 1, 2]);
    let sent = Sent {
        head: flag << 7 | value << 4 | 0x0B,
        kind,
        before: before(c, kind),
        outer,
        id: p::element(c, 0x02, &[id]),
        operation: p::element(c, 0x02, &[operation]),
        scheme_and_string: [p::element(c, 0x04, &scheme), p::element(c, 0x04, &string)].concat(),
        tail: p::row(c, elements, 10),
        after: after(c, kind),
    };
    (sent, table)
}

/// The entry from which the component is taken: the result's id at any place of ours;
/// "fewer than four peer invokes wait and none has its id".
fn entry(c: &mut Chance, kind: u8, outer: u8, id: u8) -> Entry {
    let (mut own, mut peers) = (tables::owns(c), tables::peers(c));
    match (kind, outer) {
        (REGISTER, _) => return CLOSED,
        (_, RESULT) => {
            own.retain(|[other, _]| *other != id);
            own.truncate(PLACES - 1);
            let place = c.below(own.len() + 1);
            own.insert(place, [id, 59]);
        }
        _ => {
            peers.retain(|[other, _]| *other != id);
            peers.truncate(PLACES - 1);
        }
    }
    tables::open(&own, &peers)
}

/// Whole information elements, none of them a Facility.
fn before(c: &mut Chance, kind: u8) -> Vec<u8> {
    let mut octets = Vec::new();
    if kind == RELEASE_COMPLETE {
        for _ in 0..c.below(3) {
            let identifier = c.pick(&[0x08, 0x08, 0x00, 0x0F, 0x1B, 0x7F, 0xA1]);
            octets.extend(information(c, identifier));
        }
    }
    octets
}

/// Information elements that are passed over; the last one perhaps cut.
fn after(c: &mut Chance, kind: u8) -> Vec<u8> {
    let mut octets = Vec::new();
    for _ in 0..c.below(3) {
        let identifier = match kind {
            RELEASE_COMPLETE => c.pick(&[0x08, 0x08, 0x1C, 0x00, 0x7F, 0xFF]),
            _ => c.range(0x10, 0xFF) as u8,
        };
        octets.extend(information(c, identifier));
    }
    if c.one_in(4) {
        octets.extend([0x7F, 0x03, 0x0F]);
    }
    octets
}

fn information(c: &mut Chance, identifier: u8) -> Vec<u8> {
    if identifier >= 0x80 {
        return vec![identifier];
    }
    let length = c.below(5);
    [vec![identifier, length as u8], c.octets(length)].concat()
}
