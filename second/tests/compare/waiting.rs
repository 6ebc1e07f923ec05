//! How many wait on each side, and at which place an id is found: what becomes of it.

use crate::call::{Call, Named};
use crate::carried::{self, Weighed, FACILITY, RELEASE_COMPLETE};
use crate::codes;
use crate::met::Met;
use crate::tables::{self, Entry, ENTRY};
use second::component::Component;
use second::operation::we_serve;
use second::table::{Open, Side};

const EACH: &[u8] = &[1, 2, 3, 4];
const INVOKE: u8 = 0xA1;
const RESULT: u8 = 0xA2;
const ERROR: u8 = 0xA3;

/// What must occur. The numbers are places, 1 to 4, or how many wait, unless the name
/// says otherwise.
pub const MET: [(&str, &[u8]); 28] = [
    // An Invoke that is received.
    ("peer put at", EACH),
    ("duplicate of", EACH),
    ("duplicate among", EACH),
    // Its operation, or 0 if it isn't served.
    ("problem 3 for", &[0, 18, 38, 60, 61]),
    ("38 taken beside", &[0, 1, 2, 3]),
    ("problem 1 beside", &[0, 1, 2, 3]),
    ("linked to", EACH),
    ("problem 5 among", &[0, 1, 2, 3, 4]),
    ("problem 6 at", EACH),
    ("problem 7 at", EACH),
    // A result or an error that is received.
    ("result to", EACH),
    ("error to", EACH),
    ("release result to", EACH),
    ("release error to", EACH),
    ("another's result to", EACH),
    ("another's code to", EACH),
    // An id of the other side: the component that bears it.
    ("other side's id", &[INVOKE, RESULT, ERROR]),
    // A local call.
    ("own put at", EACH),
    ("23 by four", &[4]),
    ("23 by id at", EACH),
    ("result written to", EACH),
    ("error written to", EACH),
    ("24 among", &[0, 1, 2, 3, 4]),
    ("24 for ours at", EACH),
    ("peer's id written", &[INVOKE]),
    // How many of both sides waited in an entry that is closed.
    ("closed with", &[0, 1, 2, 3, 4, 5, 6, 7, 8]),
    // The most that wait in one entry, in talks that begin with zeros.
    ("own grown to", &[0, 1, 2, 3, 4]),
    ("peers grown to", &[0, 1, 2, 3, 4]),
];

fn count(side: &Side) -> u8 {
    side.waiting().count() as u8
}

/// The place of this id, or 0.
fn place(side: &Side, id: i8) -> u8 {
    let place = side.waiting().position(|waiting| waiting.id == id);
    place.map_or(0, |place| place as u8 + 1)
}

/// What the component meets, of the above.
pub fn received(weighed: &Weighed) -> Vec<Met> {
    let (own, peer) = (&weighed.open.own, &weighed.open.peer);
    match &weighed.component {
        // What a release does with an Invoke isn't seen.
        Component::Invoke { .. } if weighed.kind == RELEASE_COMPLETE => Vec::new(),
        Component::Invoke { .. } => invoke(weighed),
        Component::ReturnResult { id, .. } => match weighed.problem {
            None => vec![(
                kind(weighed, ["result to", "release result to"]),
                place(own, *id),
            )],
            Some(0) if place(peer, *id) > 0 => vec![("other side's id", RESULT)],
            Some(2) if is_anothers(weighed) => vec![("another's result to", place(own, *id))],
            _ => Vec::new(),
        },
        Component::ReturnError { id, .. } => match weighed.problem {
            None => vec![(
                kind(weighed, ["error to", "release error to"]),
                place(own, *id),
            )],
            Some(0) if place(peer, *id) > 0 => vec![("other side's id", ERROR)],
            Some(3) if is_anothers(weighed) => vec![("another's code to", place(own, *id))],
            _ => Vec::new(),
        },
        Component::Reject { .. } => Vec::new(),
    }
}

fn kind(weighed: &Weighed, [facility, release]: [&'static str; 2]) -> &'static str {
    match weighed.kind {
        FACILITY => facility,
        _ => release,
    }
}

fn invoke(weighed: &Weighed) -> Vec<Met> {
    let Component::Invoke {
        id,
        linked,
        operation,
        ..
    } = weighed.component
    else {
        panic!("no Invoke");
    };
    let Open { own, peer } = &weighed.open;
    let linked_at = linked.map_or(0, |linked| place(own, linked));
    match weighed.problem {
        Some(0) => vec![
            ("duplicate of", place(peer, id)),
            ("duplicate among", count(peer)),
        ],
        Some(1) => vec![("problem 1 beside", count(peer))],
        Some(3) => {
            let is_served = we_serve(operation).is_some();
            vec![("problem 3 for", if is_served { operation } else { 0 })]
        }
        Some(5) => vec![("problem 5 among", count(own))],
        Some(6) => vec![("problem 6 at", linked_at)],
        Some(7) => vec![("problem 7 at", linked_at)],
        Some(_) => Vec::new(),
        None => {
            let mut met = vec![match operation {
                38 => ("38 taken beside", count(peer)),
                _ => ("peer put at", count(peer) + 1),
            }];
            met.extend(linked.map(|_| ("linked to", linked_at)));
            met.extend((place(own, id) > 0).then_some(("other side's id", INVOKE)));
            met
        }
    }
}

/// Whether the result's operation, or a list with the error's code, is that of
/// another invoke of ours.
fn is_anothers(weighed: &Weighed) -> bool {
    let ours = weighed.operation;
    let mut own = weighed.open.own.waiting();
    match &weighed.component {
        Component::ReturnResult { answer, .. } => {
            let operation = answer.as_ref().map_or(ours, |a| a.operation);
            operation != ours && own.any(|other| other.operation == operation)
        }
        Component::ReturnError { code, .. } => {
            own.any(|other| codes::problem(other.operation, *code).is_none())
        }
        _ => false,
    }
}

/// What the local call meets, of the above.
pub fn called(table: &[u8], call: &Call, room: usize) -> Vec<Met> {
    let (named, id) = match call {
        Call::Invoke(named, _, id, _) => (named, *id),
        Call::Result(named, id, _) | Call::Error(named, id, ..) => (named, *id),
        _ => return Vec::new(),
    };
    let code = call.called(table, &vec![0; room]).map(|called| called.code);
    let Some(Open { own, peer }) = carried::open(table, *named) else {
        return Vec::new();
    };
    match (call, code) {
        (Call::Invoke(..), Some(0)) => {
            let mut met = vec![("own put at", count(&own) + 1)];
            met.extend((place(&peer, id) > 0).then_some(("peer's id written", INVOKE)));
            met
        }
        (_, Some(23)) => match place(&own, id) {
            0 => vec![("23 by four", count(&own))],
            at => vec![("23 by id at", at)],
        },
        (Call::Result(..), Some(0)) => vec![("result written to", place(&peer, id))],
        (Call::Error(..), Some(0)) => vec![("error written to", place(&peer, id))],
        (_, Some(24)) => {
            let mut met = vec![("24 among", count(&peer))];
            met.extend((place(&own, id) > 0).then_some(("24 for ours at", place(&own, id))));
            met
        }
        _ => Vec::new(),
    }
}

/// What the call closes, "with whatever waits": verdicts 2 to 5, and release.
pub fn closed(table: &[u8], call: &Call, room: usize) -> Vec<Met> {
    let buffer = vec![0; room];
    let (named, closes): (Named, bool) = match call {
        Call::Receive(message) => {
            let code = second::receive(table, message, &buffer).code;
            let first = message.first().copied().unwrap_or(0);
            ((first >> 7, first >> 4 & 7), (2..=5).contains(&code))
        }
        Call::Release(named) => {
            let called = call.called(table, &buffer);
            (*named, called.is_some_and(|called| called.code == 0))
        }
        _ => return Vec::new(),
    };
    match carried::open(table, named) {
        Some(open) if closes => vec![("closed with", count(&open.own) + count(&open.peer))],
        _ => Vec::new(),
    }
}

/// How far a sound table has grown.
pub fn grown(table: &[u8]) -> [Met; 2] {
    let entries = || {
        table
            .chunks(ENTRY)
            .map(|e| Entry::try_from(e).expect("whole"))
    };
    let most = |side: fn(&Entry) -> Vec<tables::Invoke>| {
        let counts = entries().map(|entry| side(&entry).len() as u8);
        counts.max().unwrap_or(0)
    };
    [
        ("own grown to", most(tables::owns_of)),
        ("peers grown to", most(tables::peers_of)),
    ]
}
