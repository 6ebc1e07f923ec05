//! Local calls by chance, suitable or not.

use crate::call::{Call, Named};
use crate::chance::Chance;
use crate::components::{code, near, one_of};
use crate::parameters as p;
use crate::tables::{self, open_one, owns_of, peers_of, Entry, CLOSED, STATE_PEER};

pub fn call(c: &mut Chance, image: &[u8]) -> Call {
    let nothing_waits = open_one(c, image, STATE_PEER).is_none() && !c.one_in(8);
    let kind = match nothing_waits {
        true => c.pick(&[0, 1, 3, 4, 5, 11]),
        false => c.below(12),
    };
    match kind {
        0..=2 => {
            let operation = own_operation(c);
            let id = c.id() as i8;
            Call::Begin(operation, id, p::of_invoke(c, operation))
        }
        3..=5 => {
            let operation = own_operation(c);
            let named = name(c, image, 0);
            let id = invoke_id(c, &entry(image, named)) as i8;
            Call::Invoke(named, operation, id, p::of_invoke(c, operation))
        }
        6..=8 => {
            let (named, id, operation) = peer(c, image);
            Call::Result(named, id, p::of_result(c, operation))
        }
        9..=10 => {
            let (named, id, _) = peer(c, image);
            let code = code(c);
            Call::Error(named, id, code, p::of_error(c))
        }
        _ => Call::Release(name(c, image, 0)),
    }
}

/// The entry named; a closed one if it is none.
fn entry(image: &[u8], (flag, value): Named) -> Entry {
    match flag <= 1 && value <= 6 {
        true => tables::entry(image, flag, value),
        false => CLOSED,
    }
}

/// The id of an invoke of ours: mostly a new one; one of ours, one of the peer's.
fn invoke_id(c: &mut Chance, entry: &Entry) -> u8 {
    let own = owns_of(entry);
    match c.below(8) {
        0 => one_of(c, &own)[0],
        1 => one_of(c, &peers_of(entry))[0],
        _ => tables::new_id(c, &own),
    }
}

fn own_operation(c: &mut Chance) -> u8 {
    match c.below(12) {
        0 => c.octet(),
        1 => c.pick(&[18, 38, 60, 61]),
        2..=3 => 17,
        4..=6 => 59,
        _ => c.pick(&tables::OWN),
    }
}

/// A transaction with these bits of state by preference; flags 0 to 3, values
/// 0 to 8 now and then.
fn name(c: &mut Chance, image: &[u8], wanted: u8) -> Named {
    let other = (c.below(4) as u8, c.below(9) as u8);
    match c.below(14) {
        0 => other,
        1 => open_one(c, image, 0).unwrap_or(other),
        _ => open_one(c, image, wanted).unwrap_or(other),
    }
}

/// A transaction with a peer invoke by preference, the id of one or an id near it,
/// now and then one of ours, and the operation.
fn peer(c: &mut Chance, image: &[u8]) -> (Named, i8, u8) {
    let named = name(c, image, STATE_PEER);
    let entry = entry(image, named);
    let [id, operation] = one_of(c, &peers_of(&entry));
    let id = match c.one_in(16) {
        true => one_of(c, &owns_of(&entry))[0],
        false => near(c, id),
    };
    (named, id as i8, operation)
}
