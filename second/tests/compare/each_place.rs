//! Every id against sides of none to four, and what must become of it.

use crate::both::{compare, Call, Facts, Named};
use crate::carried::{asked, FACILITY};
use crate::codes;
use crate::errors;
use crate::passwords;
use crate::report::lines;
use crate::tables::{self, Entry, Invoke, CLOSED, PLACES};

/// The ids of our side and of the peer's, in order of arrival: others, and the same.
const IDS: [([u8; PLACES], [u8; PLACES]); 5] = [
    ([1, 2, 3, 4], [5, 6, 7, 8]),
    ([1, 2, 3, 4], [4, 3, 2, 1]),
    ([0, 255, 128, 127], [0, 255, 128, 127]),
    ([127, 0, 1, 255], [3, 0, 128, 9]),
    ([4, 2, 0, 254], [255, 127, 1, 0]),
];
const OURS: [u8; PLACES] = [17, 59, 11, 17];
const THEIRS: [u8; PLACES] = [60, 18, 61, 60];
/// Served, and not served.
const INVOKED: [u8; 5] = [18, 38, 60, 61, 99];
/// The code that every list has, and 17's own.
const CODES: [u8; 2] = [34, 37];

const INVOKE: u8 = 0x81;
const RESULT: u8 = 0x82;
const ERROR: u8 = 0x83;

/// An entry among others, and what waits in it.
struct Case {
    table: Vec<u8>,
    named: Named,
    own: Vec<Invoke>,
    peers: Vec<Invoke>,
}

#[test]
fn invokes() {
    each_case(|case| {
        for id in 0..=255 {
            for operation in INVOKED {
                let problem = case.problem(id, None, operation);
                case.check_invoke(id, None, operation, problem);
            }
        }
    });
}

/// "A linked id is looked up among all of ours", after the id and the operation.
#[test]
fn linked() {
    each_case(|case| {
        let waits = case.peers.first().map_or(0, |[id, _]| *id);
        for linked in 0..=255 {
            for (id, operation) in [(99, 18), (99, 60), (99, 38), (99, 99), (waits, 18)] {
                let problem = case.problem(id, Some(linked), operation);
                case.check_invoke(id, Some(linked), operation, problem);
            }
        }
    });
}

#[test]
fn results_and_errors() {
    each_case(|case| {
        for id in 0..=255 {
            let ours = found(&case.own, id);
            for operation in [59, 11] {
                let message = passwords::sent(FACILITY, case.named, id, operation, &[]);
                let problem = match ours {
                    None => Some([RESULT, 0]),
                    Some(ours) if ours != operation => Some([RESULT, 2]),
                    Some(_) => None,
                };
                case.check_answer(id, message, problem);
            }
            for code in CODES {
                let message = errors::sent(FACILITY, case.named, id, code, &[]);
                let problem = match ours {
                    None => Some([ERROR, 0]),
                    Some(ours) => codes::problem(ours, code).map(|number| [ERROR, number]),
                };
                case.check_answer(id, message, problem);
            }
        }
    });
}

/// "23 is given when four wait or when the id is already among ours", before 25.
#[test]
fn invokes_of_ours() {
    each_case(|case| {
        let is_full = case.own.len() == PLACES;
        for id in 0..=255 {
            let refusal = (is_full || tables::has(&case.own, id)).then_some(23);
            let call = |p| Call::Invoke(case.named, 10, id as i8, p);
            let own = [&case.own[..], &[[id, 10]]].concat();
            case.check_called(&call(vec![0x05, 0x00]), refusal, &own, &case.peers);
            let refusal = refusal.or(Some(25));
            case.check_called(&call(vec![]), refusal, &case.own, &case.peers);
        }
    });
}

/// "Any that waits may be answered, in any order; the parameter's kind goes by its
/// operation."
#[test]
fn answers_of_ours() {
    each_case(|case| {
        for id in 0..=255 {
            let theirs = found(&case.peers, id);
            let peers = without(&case.peers, id);
            let refusal = |takes_it: bool| match theirs {
                None => Some(24),
                Some(_) => (!takes_it).then_some(25),
            };
            let result = |p| Call::Result(case.named, id as i8, p);
            let call = result(vec![]);
            case.check_called(&call, refusal(theirs != Some(18)), &case.own, &peers);
            let call = result(b"\x12\x041234".to_vec());
            case.check_called(&call, refusal(theirs == Some(18)), &case.own, &peers);
            let call = Call::Error(case.named, id as i8, 72, vec![]);
            case.check_called(&call, refusal(true), &case.own, &peers);
        }
    });
}

/// Each number on each side, the operations turned on at each; in an entry of ours or
/// of the network's.
fn each_case(check: impl Fn(&Case)) {
    for (at, (ours, theirs)) in IDS.into_iter().enumerate() {
        for (own, peers) in (0..=PLACES).flat_map(|own| (0..=PLACES).map(move |p| (own, p))) {
            let turn = at + own;
            let own = side(ours, OURS, own, turn);
            let peers = side(theirs, THEIRS, peers, turn);
            let named = (((at + peers.len()) % 2) as u8, (at + own.len()) as u8 % 7);
            let mut table = tables::named("crowded");
            tables::put(&mut table, named, tables::open(&own, &peers));
            check(&Case {
                table,
                named,
                own,
                peers,
            });
        }
    }
}

/// So many of these ids, with these operations from another one on.
fn side(ids: [u8; PLACES], operations: [u8; PLACES], count: usize, turn: usize) -> Vec<Invoke> {
    let pair = |place| [ids[place], operations[(place + turn) % PLACES]];
    (0..count).map(pair).collect()
}

/// The operation that waits under this id.
fn found(side: &[Invoke], id: u8) -> Option<u8> {
    let place = side.iter().find(|[other, _]| *other == id);
    place.map(|[_, operation]| *operation)
}

fn without(side: &[Invoke], id: u8) -> Vec<Invoke> {
    let others = side.iter().filter(|[other, _]| *other != id);
    others.copied().collect()
}

impl Case {
    /// Invoke problems, in the order of step 6.
    fn problem(&self, id: u8, linked: Option<u8>, operation: u8) -> Option<u8> {
        let to = linked.map(|linked| found(&self.own, linked));
        match (to, operation) {
            _ if tables::has(&self.peers, id) => Some(0),
            _ if self.peers.len() == PLACES => Some(3),
            (_, 99) => Some(1),
            (None, _) => None,
            (Some(None), _) => Some(5),
            (Some(Some(17)), 18) => None,
            (Some(Some(17)), _) => Some(7),
            (Some(Some(_)), _) => Some(6),
        }
    }

    fn check_invoke(&self, id: u8, linked: Option<u8>, operation: u8, problem: Option<u8>) {
        let message = asked(self.named, id, linked, operation);
        let mut peers = self.peers.clone();
        if operation != 38 && problem.is_none() {
            peers.push([id, operation]);
        }
        let problem = problem.map(|number| [INVOKE, number]);
        self.check_received(id, message, problem, &self.own, &peers);
    }

    /// "A result or error clears the place with its id; the others keep their order."
    fn check_answer(&self, id: u8, message: Vec<u8>, problem: Option<[u8; 2]>) {
        let own = without(&self.own, id);
        self.check_received(id, message, problem, &own, &self.peers);
    }

    fn check_received(
        &self,
        id: u8,
        message: Vec<u8>,
        problem: Option<[u8; 2]>,
        own: &[Invoke],
        peers: &[Invoke],
    ) {
        let facts = compare(&self.table, &Call::Receive(message), 12);
        match problem {
            None => self.check_after(&facts, 0, tables::open(own, peers)),
            Some([tag, number]) => {
                assert_eq!(facts.reply()[6..], [0x02, 0x01, id, tag, 0x01, number]);
                self.check_after(&facts, 3, CLOSED);
            }
        }
    }

    fn check_called(&self, call: &Call, refusal: Option<u8>, own: &[Invoke], peers: &[Invoke]) {
        let facts = compare(&self.table, call, 40);
        match refusal {
            None => self.check_after(&facts, 0, tables::open(own, peers)),
            Some(code) => {
                let entry = tables::open(&self.own, &self.peers);
                self.check_after(&facts, code, entry);
            }
        }
    }

    /// The code, and the table with this entry and all others as they were.
    fn check_after(&self, facts: &Facts, code: u8, entry: Entry) {
        let mut table = self.table.clone();
        tables::put(&mut table, self.named, entry);
        if (facts.code(), &facts.table) != (code, &table) {
            lines("own", &format!("{:?}", self.own));
            lines("peers", &format!("{:?}", self.peers));
            panic!("{} and not {code}, or another table", facts.code());
        }
    }
}
