//! Every code as the error to each operation that we begin, and as one of ours.

use crate::both::{compare, compare_message, Call, Named};
use crate::carried::{FACILITY, REGISTER, RELEASE_COMPLETE};
use crate::codes::{problem, LISTED};
use crate::errors::sent;
use crate::notation::{hex, octets};
use crate::report::lines;
use crate::tables::{self, Entry, Invoke, CLOSED, OWN, PEER, PLACES};
use second::ffi::{Component, Received, Span};

/// The id under which an error is meant to come, one that none of ours has, and those
/// of the others of ours.
const ID: u8 = 1;
const OTHER: u8 = 2;
const OTHERS: [u8; PLACES] = [11, 12, 13, 14];
/// How many of ours wait, and the place of the one that is meant.
const SHAPES: [(usize, usize); 5] = [(1, 0), (4, 0), (4, 1), (4, 2), (4, 3)];
/// No parameter, and such as an error may have: "any one element".
const PARAMETERS: [&str; 4] = ["none", "0500", "0A810101", "30053003800101"];
/// "problems general 80, ..., error 83"
const GENERAL: u8 = 0x80;
const ERROR: u8 = 0x83;

/// An error, and the table that it meets.
struct Sent<'a> {
    table: &'a [u8],
    kind: u8,
    named: Named,
    id: u8,
    code: u8,
    behind: &'a [u8],
}

impl Sent<'_> {
    /// Both show it, or both refuse it with this problem.
    fn check(&self, problem: Option<[u8; 2]>) {
        let message = sent(self.kind, self.named, self.id, self.code, self.behind);
        let facts = compare_message(self.table, &message, 12);
        let (code, reply, entry) = match (self.kind, problem) {
            // "always with verdict 5; on a fault ... nothing is shown"
            (RELEASE_COMPLETE, _) => (5, Vec::new(), CLOSED),
            (_, Some(problem)) => (3, self.reject(problem), CLOSED),
            (_, None) => (0, Vec::new(), self.cleared()),
        };
        let received = Received {
            code,
            written: reply.len(),
            shown: match problem {
                Some(_) => Component::default(),
                None => self.shown(message.len()),
            },
            ..Received::default()
        };
        let mut table = self.table.to_vec();
        tables::put(&mut table, self.named, entry);
        let as_wanted = (facts.reply(), &facts.table) == (&reply[..], &table);
        if !as_wanted || facts.received != received {
            println!("| {}", name(self.code));
            println!("| {}", self.code);
            lines("entry", &hex(&self.entry()));
            panic!("not what 02 says");
        }
    }

    fn entry(&self) -> Entry {
        tables::entry(self.table, self.named.0, self.named.1)
    }

    /// "A result or error clears the place with its id; the others keep their order."
    fn cleared(&self) -> Entry {
        let mut own = tables::owns_of(&self.entry());
        own.retain(|[id, _]| *id != self.id);
        tables::open(&own, &tables::peers_of(&self.entry()))
    }

    /// "RELEASE COMPLETE, Facility with Reject", under the other flag.
    fn reject(&self, [tag, number]: [u8; 2]) -> Vec<u8> {
        let (flag, value) = self.named;
        let head = (1 - flag) << 7 | value << 4 | 0x0B;
        let mut reply = vec![head, 0x2A, 0x1C, 0x08, 0xA4, 0x06];
        reply.extend([0x02, 0x01, self.id, tag, 0x01, number]);
        reply
    }

    /// The parameter is all that stands behind the code.
    fn shown(&self, end: usize) -> Component {
        Component {
            kind: 0xA3,
            has_id: 1,
            id: self.id as i8,
            code: self.code,
            parameter: Span {
                start: end - self.behind.len(),
                end,
            },
            ..Component::default()
        }
    }
}

fn name(code: u8) -> &'static str {
    let named = LISTED.iter().find(|(_, listed, _)| *listed == code);
    named.map_or("not listed", |(name, ..)| name)
}

/// The operation that is meant in each entry: each of the seven in one of ours and
/// in another of the network's, so that no two neighbours have the same.
fn waiting((flag, value): Named) -> u8 {
    let at = usize::from(value) + if flag == 1 { 0 } else { 3 };
    OWN[at % OWN.len()]
}

fn all_names() -> Vec<Named> {
    let values = |flag| (0..7).map(move |value| (flag, value));
    values(1).chain(values(0)).collect()
}

/// The operation under the one id, and others of ours around it, none the same.
fn owns(operation: u8, (count, meant): (usize, usize)) -> Vec<Invoke> {
    let at = OWN.iter().position(|own| *own == operation);
    let at = at.expect("one of the seven");
    let invoke = |place| match place == meant {
        true => [ID, operation],
        false => [OTHERS[place], OWN[(at + place + 1) % OWN.len()]],
    };
    (0..count).map(invoke).collect()
}

/// Every entry open, with its operation under the one id, and with these peer
/// invokes.
fn crowd(shape: (usize, usize), peers: &[Invoke]) -> Vec<u8> {
    let entry = |named| tables::open(&owns(waiting(named), shape), peers);
    all_names().into_iter().flat_map(entry).collect()
}

/// Each code to each operation, alone and among four of ours at each place, alone and
/// beside peer invokes of the same id or of the other.
fn each(kind: u8, id: u8, behind: &[u8], wanted: impl Fn(u8, u8) -> Option<[u8; 2]>) {
    let four = [[OTHER, 18], [5, 60], [ID, 61], [0, 60]];
    let peers: [&[Invoke]; 3] = [&[], &[[ID, 60]], &four];
    for (shape, peers) in SHAPES.into_iter().flat_map(|s| peers.map(|p| (s, p))) {
        let table = &crowd(shape, peers);
        for named in all_names() {
            for code in 0..=255 {
                let sent = Sent {
                    table,
                    kind,
                    named,
                    id,
                    code,
                    behind,
                };
                sent.check(wanted(waiting(named), code));
            }
        }
    }
}

/// "code not listed, 2", and "directly after" it 3.
fn by_lists(operation: u8, code: u8) -> Option<[u8; 2]> {
    problem(operation, code).map(|number| [ERROR, number])
}

#[test]
fn in_facility() {
    for parameter in PARAMETERS.map(octets) {
        each(FACILITY, ID, &parameter, by_lists);
    }
}

#[test]
fn in_release_complete() {
    for parameter in PARAMETERS.map(octets) {
        each(RELEASE_COMPLETE, ID, &parameter, by_lists);
    }
}

/// "id, error problem 0" comes before both.
#[test]
fn under_another_id() {
    for kind in [FACILITY, RELEASE_COMPLETE] {
        for parameter in PARAMETERS.map(octets) {
            each(kind, OTHER, &parameter, |_, _| Some([ERROR, 0]));
        }
    }
}

/// Step 5's faults come first: "an element that can't be read, general 2; ... octets
/// after the last place, readable or not, general 1".
#[test]
fn with_a_fault_behind() {
    for kind in [FACILITY, RELEASE_COMPLETE] {
        for id in [ID, OTHER] {
            for (behind, number) in [("05", 2), ("1F00", 2), ("050000", 1), ("05000500", 1)] {
                each(kind, id, &octets(behind), |_, _| Some([GENERAL, number]));
            }
        }
    }
}

/// No own invoke waits, whatever the entry's other octets are.
#[test]
fn where_none_waits() {
    let places = [
        ("ownopen", FACILITY, (1, 0)),
        ("ownopen", RELEASE_COMPLETE, (1, 0)),
        ("w1", FACILITY, (0, 0)),
        ("w1", RELEASE_COMPLETE, (0, 0)),
        ("peers4", FACILITY, (0, 0)),
        ("fresh", REGISTER, (0, 0)),
    ];
    for (table, kind, named) in places {
        for id in [0, 1, 5] {
            for code in 0..=255 {
                let sent = Sent {
                    table: &tables::named(table),
                    kind,
                    named,
                    id,
                    code,
                    behind: &[],
                };
                sent.check(Some([ERROR, 0]));
            }
        }
    }
}

/// Errors that we write are bound by 01's table alone, whatever we wait for, and to
/// whichever of the peer's they go.
#[test]
fn that_we_write() {
    for peer in PEER {
        for own in [None].into_iter().chain(OWN.map(Some)) {
            for place in 0..PLACES {
                let own: Vec<Invoke> = own.iter().map(|operation| [ID, *operation]).collect();
                let mut peers = OTHERS.map(|id| [id, 60]);
                peers[place] = [ID, peer];
                let table = tables::image(&[(0, tables::open(&own, &peers).to_vec())]);
                check_written(&table);
            }
        }
    }
}

fn check_written(table: &[u8]) {
    for code in 0..=255 {
        let call = Call::Error((1, 0), ID as i8, code, Vec::new());
        let wanted = match LISTED.iter().any(|(_, listed, _)| *listed == code) {
            true => 0,
            false => 20,
        };
        assert_eq!(compare(table, &call, 12).code(), wanted);
    }
}
