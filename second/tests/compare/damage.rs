//! Images that are damaged, each by one thing that a sound one never has.

use crate::chance::Chance;
use crate::tables::{self, Entry, Invoke, CLOSED, ENTRY, LENGTH, OWN, PEER, PLACES};

/// What is damaged, and the numbers of it that must occur. A place is 1 to 4 of ours
/// and 11 to 14 of the peer's; a pair of places has both digits, the peer's 100 more.
pub const KINDS: [(&str, &[u8]); 9] = [
    ("gap at", &[1, 2, 3, 11, 12, 13]),
    ("id alone at", &[1, 2, 3, 4, 11, 12, 13, 14]),
    ("none before", &[2, 3, 4, 12, 13, 14]),
    (
        "equal ids at",
        &[12, 13, 14, 23, 24, 34, 112, 113, 114, 123, 124, 134],
    ),
    // The state that stands there, over 7 told as 8.
    ("wrong state", &[0, 1, 2, 3, 4, 5, 6, 7, 8]),
    ("the other's at", &[1, 2, 3, 4, 11, 12, 13, 14]),
    ("nobody's at", &[1, 2, 3, 4, 11, 12, 13, 14]),
    // The octet of the closed entry; 17 for all that an open one held.
    (
        "stale octet",
        &[1, 2, 3, 4, 5, 6, 7, 8, 9, 10, 11, 12, 13, 14, 15, 16, 17],
    ),
    // Another length, told as 0 if it is neither of the three.
    ("length", &[0, 70, 237, 239]),
];

/// The kinds by their places above, counted from 1, where they are met among others.
pub const MET: [(&str, &[u8]); 1] = [("damaged", &[1, 2, 3, 4, 5, 6, 7, 8, 9])];

/// A damaged image, near this sound one; the place of its kind above, and the number.
pub fn damaged(c: &mut Chance, image: &[u8]) -> (Vec<u8>, usize, u8) {
    let mut image = image.to_vec();
    let kind = c.below(KINDS.len());
    let number = match kind {
        0 => in_side(c, &mut image, gap),
        1 => in_side(c, &mut image, id_alone),
        2 => in_side(c, &mut image, none_before),
        3 => in_side(c, &mut image, equal_ids),
        4 => in_entry(c, &mut image, wrong_state),
        5 => in_side(c, &mut image, the_others),
        6 => in_side(c, &mut image, nobodys),
        7 => in_entry(c, &mut image, stale),
        _ => length(c, &mut image),
    };
    (image, kind, number)
}

/// One octet changed anywhere; it may have been another one already.
pub fn changed(c: &mut Chance, image: &[u8]) -> Vec<u8> {
    let mut image = image.to_vec();
    let at = c.below(image.len());
    image[at] = match c.flip() {
        true => c.octet(),
        false => c.pick(&[0, 1, 3, 5, 7, 17, 18, 59, 60]),
    };
    image
}

/// An entry by chance, which this damages; the number that it gives.
fn in_entry(c: &mut Chance, image: &mut [u8], damage: fn(&mut Chance, &mut Entry) -> u8) -> u8 {
    let mut entry = tables::random_entry(c);
    let number = damage(c, &mut entry);
    let named = (c.below(2) as u8, c.below(7) as u8);
    tables::put(image, named, entry);
    number
}

/// The side that is damaged: its places, and the operations of both sides.
struct Side<'a> {
    places: &'a mut [u8],
    operations: &'static [u8],
    others: &'static [u8],
}

/// One side of an entry by chance, which this damages; the place that it gives. The
/// state tells of an operation at any place, so that it isn't at fault too.
fn in_side(c: &mut Chance, image: &mut [u8], damage: fn(&mut Chance, &mut Side) -> u8) -> u8 {
    let mut entry = tables::random_entry(c);
    let is_own = c.flip();
    let (at, bit) = match is_own {
        true => (1, tables::STATE_OWN),
        false => (9, tables::STATE_PEER),
    };
    let mut side = Side {
        places: &mut entry[at..at + 2 * PLACES],
        operations: if is_own { &OWN } else { &PEER },
        others: if is_own { &PEER } else { &OWN },
    };
    let number = damage(c, &mut side);
    let has_operation = side.places.chunks(2).any(|pair| pair[1] != 0);
    entry[0] = match has_operation {
        true => entry[0] | bit,
        false => entry[0] & !bit,
    };
    let named = (c.below(2) as u8, c.below(7) as u8);
    tables::put(image, named, entry);
    let apart = if number > 10 { 100 } else { 10 };
    number + if is_own { 0 } else { apart }
}

impl Side<'_> {
    /// So many sound invokes instead of what stands there.
    fn fill(&mut self, c: &mut Chance, count: usize) {
        let invokes: Vec<Invoke> = tables::side(c, self.operations, count);
        self.places.fill(0);
        self.places[..2 * count].copy_from_slice(&invokes.concat());
    }

    fn id(&mut self, place: usize) -> &mut u8 {
        &mut self.places[2 * place]
    }

    fn operation(&mut self, place: usize) -> &mut u8 {
        &mut self.places[2 * place + 1]
    }
}

/// A place taken out, those behind it not moved up.
fn gap(c: &mut Chance, side: &mut Side) -> u8 {
    let count = c.range(2, PLACES);
    side.fill(c, count);
    let place = c.below(count - 1);
    *side.id(place) = 0;
    *side.operation(place) = 0;
    place as u8 + 1
}

/// An id behind the last invoke, without its operation.
fn id_alone(c: &mut Chance, side: &mut Side) -> u8 {
    let count = c.below(PLACES);
    side.fill(c, count);
    *side.id(count) = c.range(1, 255) as u8;
    count as u8 + 1
}

/// A sound invoke behind a place that isn't used.
fn none_before(c: &mut Chance, side: &mut Side) -> u8 {
    let count = c.below(PLACES - 1);
    side.fill(c, count);
    let place = c.range(count + 1, PLACES - 1);
    *side.id(place) = c.id();
    *side.operation(place) = c.pick(side.operations);
    place as u8 + 1
}

/// One id at two places.
fn equal_ids(c: &mut Chance, side: &mut Side) -> u8 {
    let pairs = [(0, 1), (0, 2), (0, 3), (1, 2), (1, 3), (2, 3)];
    let (first, second) = c.pick(&pairs);
    let count = c.range(second + 1, PLACES);
    side.fill(c, count);
    *side.id(second) = *side.id(first);
    10 * (first as u8 + 1) + second as u8 + 1
}

/// "an operation of its side": here of the other.
fn the_others(c: &mut Chance, side: &mut Side) -> u8 {
    let others = side.others;
    with_operation(c, side, |c| c.pick(others))
}

/// An operation that neither side has, 38 in every other.
fn nobodys(c: &mut Chance, side: &mut Side) -> u8 {
    with_operation(c, side, |c| {
        let any = c.range(1, 255) as u8;
        match c.flip() || OWN.contains(&any) || PEER.contains(&any) {
            true => 38,
            false => any,
        }
    })
}

fn with_operation(c: &mut Chance, side: &mut Side, draw: impl Fn(&mut Chance) -> u8) -> u8 {
    let count = c.range(1, PLACES);
    side.fill(c, count);
    let place = c.below(count);
    *side.operation(place) = draw(c);
    place as u8 + 1
}

/// Any other state than that of what waits.
fn wrong_state(c: &mut Chance, entry: &mut Entry) -> u8 {
    let other = match c.below(4) {
        0 => c.range(8, 255) as u8,
        _ => c.below(8) as u8,
    };
    entry[0] = match other == entry[0] {
        true => other ^ 2,
        false => other,
    };
    // Nothing else: an entry of zeros would be a closed one.
    if *entry == CLOSED {
        entry[0] = 2;
    }
    entry[0].min(8)
}

/// A closed entry that isn't all zero.
fn stale(c: &mut Chance, entry: &mut Entry) -> u8 {
    if entry[0] != 1 && c.one_in(4) {
        entry[0] = 0;
        return ENTRY as u8;
    }
    *entry = CLOSED;
    let at = c.range(1, ENTRY - 1);
    entry[at] = match c.flip() {
        true => c.range(1, 255) as u8,
        false => c.pick(&[1, 10, 17, 18, 59, 60]),
    };
    at as u8
}

/// Cut, or zeros behind.
fn length(c: &mut Chance, image: &mut Vec<u8>) -> u8 {
    let length = match c.below(5) {
        0 => c.below(LENGTH),
        1 => LENGTH + c.range(1, 62),
        _ => c.pick(&[70, 237, 239]),
    };
    image.resize(length, 0);
    match length {
        70 | 237 | 239 => length as u8,
        _ => 0,
    }
}
