//! Facility values and components by chance, near an entry of the table.

use crate::chance::Chance;
use crate::codes;
use crate::parameters as p;
use crate::tables::{self, owns_of, peers_of, Entry, Invoke, PLACES};

/// Error codes at the edges of the list.
const ERRORS: [u8; 12] = [1, 9, 13, 16, 21, 27, 34, 38, 43, 71, 72, 72];

/// A Facility value: empty, a component, or another thing.
pub fn facility(c: &mut Chance, entry: &Entry) -> Vec<u8> {
    match c.below(40) {
        0 => Vec::new(),
        1 => {
            let count = c.below(8);
            c.octets(count)
        }
        2 => {
            let second = component(c, entry);
            [component(c, entry), second].concat()
        }
        3 => {
            let count = c.range(1, 3);
            [component(c, entry), c.octets(count)].concat()
        }
        _ => component(c, entry),
    }
}

/// One component near the entry; its places now and then disturbed.
fn component(c: &mut Chance, entry: &Entry) -> Vec<u8> {
    let outer = match owns_of(entry).is_empty() {
        false => c.pick(&[
            0xA1, 0xA1, 0xA1, 0xA2, 0xA2, 0xA2, 0xA2, 0xA2, 0xA3, 0xA3, 0xA4,
        ]),
        true => c.pick(&[
            0xA1, 0xA1, 0xA1, 0xA1, 0xA1, 0xA1, 0xA1, 0xA1, 0xA2, 0xA3, 0xA4,
        ]),
    };
    let mut places = match outer {
        0xA1 => invoke(c, entry),
        0xA2 => result(c, entry),
        0xA3 => error(c, entry),
        _ => reject(c, entry),
    };
    if c.one_in(10) {
        disturb(c, &mut places);
    }
    let outer = match c.one_in(40) {
        true => c.octet(),
        false => outer,
    };
    p::element(c, outer, &places.concat())
}

fn number(c: &mut Chance, tag: u8, octet: u8) -> Vec<u8> {
    p::element(c, tag, &[octet])
}

/// The id, or one near it.
pub fn near(c: &mut Chance, id: u8) -> u8 {
    match c.below(12) {
        0 => id.wrapping_add(1),
        1 => c.id(),
        _ => id,
    }
}

/// One of those that wait, at any place; zeros if there is none.
pub fn one_of(c: &mut Chance, side: &[Invoke]) -> Invoke {
    match side {
        [] => [0; 2],
        _ => c.pick(side),
    }
}

/// The id of an Invoke: a new one, one of ours, or a duplicate, rare while there is
/// room for another.
fn invoke_id(c: &mut Chance, entry: &Entry) -> u8 {
    let (own, peers) = (owns_of(entry), peers_of(entry));
    let duplicates = if peers.len() == PLACES { 5 } else { 1 };
    match c.below(10) {
        n if n < duplicates => one_of(c, &peers)[0],
        9 => one_of(c, &own)[0],
        _ => tables::new_id(c, &peers),
    }
}

fn invoke(c: &mut Chance, entry: &Entry) -> Vec<Vec<u8>> {
    let id = invoke_id(c, entry);
    let operation = match c.below(10) {
        0 => c.octet(),
        1 => c.pick(&tables::OWN),
        2 => 38,
        _ => c.pick(&[18, 18, 60, 61]),
    };
    let [own_id, own_operation] = one_of(c, &owns_of(entry));
    let links = match (own_operation, operation) {
        (17, 18) => c.flip(),
        (17, _) => c.one_in(4),
        _ => c.one_in(12),
    };
    let mut places = vec![number(c, 0x02, id)];
    if links {
        let linked = near(c, own_id);
        places.push(number(c, 0x80, linked));
    }
    places.push(number(c, 0x02, operation));
    places.push(p::of_invoke(c, operation));
    places
}

fn result(c: &mut Chance, entry: &Entry) -> Vec<Vec<u8>> {
    let own = owns_of(entry);
    let [own_id, own_operation] = one_of(c, &own);
    let id = near(c, own_id);
    let mut places = vec![number(c, 0x02, id)];
    if c.one_in(6) {
        return places;
    }
    let operation = match c.below(16) {
        0 => c.pick(&tables::OWN),
        1 => one_of(c, &own)[1],
        _ => own_operation,
    };
    let mut answer = vec![number(c, 0x02, operation), p::of_result(c, operation)];
    if c.one_in(12) {
        disturb(c, &mut answer);
    }
    places.push(p::element(c, 0x30, &answer.concat()));
    places
}

fn error(c: &mut Chance, entry: &Entry) -> Vec<Vec<u8>> {
    let [own_id, own_operation] = one_of(c, &owns_of(entry));
    let id = near(c, own_id);
    let code = match c.below(8) {
        0..=4 => codes::listed(c, own_operation, true),
        5 => codes::listed(c, own_operation, false),
        _ => code(c),
    };
    vec![number(c, 0x02, id), number(c, 0x02, code), p::of_error(c)]
}

pub fn code(c: &mut Chance) -> u8 {
    match c.one_in(5) {
        true => c.octet(),
        false => c.pick(&ERRORS),
    }
}

fn reject(c: &mut Chance, entry: &Entry) -> Vec<Vec<u8>> {
    let [own_id, _] = one_of(c, &owns_of(entry));
    let id = near(c, own_id);
    let first = match c.one_in(3) {
        true => p::element(c, 0x05, &[]),
        false => number(c, 0x02, id),
    };
    let tag = c.pick(&[0x80, 0x81, 0x82, 0x83, 0x80, 0x81, 0x82, 0x83, 0x84]);
    let problem = match c.one_in(3) {
        true => c.octet(),
        false => c.below(8) as u8,
    };
    vec![first, number(c, tag, problem)]
}

/// A place dropped, doubled, swapped, retagged, lengthened, or one added.
fn disturb(c: &mut Chance, places: &mut Vec<Vec<u8>>) {
    let at = c.below(places.len());
    match c.below(7) {
        0 => drop(places.remove(at)),
        1 => places.insert(at, places[at].clone()),
        2 => places.swap(0, at),
        3 => places[at] = number(c, 0x02, 1),
        4 => {
            let tag = p::tag(c);
            let length = c.below(4);
            let contents = c.octets(length);
            places[at] = p::element(c, tag, &contents);
        }
        5 => places.push(p::row(c, 1, 4)),
        _ => {
            let count = c.range(1, 2);
            places.push(c.octets(count));
        }
    }
}
