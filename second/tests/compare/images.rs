//! What is damaged: changed images and images of other lengths.

use crate::both::{compare, Call};
use crate::chance::Chance;
use crate::damage::{self, KINDS};
use crate::notation::hex;
use crate::report::lines;
use crate::tables::{self, Entry, ENTRY, OWN, PEER, PLACES};
use crate::tally::Tally;

/// A release that finds no such transaction: 22 if the image is whole, else 28.
const PROBE: Call = Call::Release((2, 0));
/// Images that are damaged by chance, and such as are sound.
const TIMES: u64 = 400_000;

/// Both find this image sound, or both damaged, as it is.
fn check(image: &[u8], is_sound: bool) {
    let facts = compare(image, &PROBE, 2);
    let wanted = if is_sound { 22 } else { 28 };
    if facts.code() != wanted {
        lines("table", &hex(image));
        panic!("{} and not {wanted}", facts.code());
    }
}

#[test]
fn one_octet_changed() {
    for name in [
        "fresh", "w1", "both17", "owns3", "peers3", "eight", "crowded",
    ] {
        let mut image = tables::named(name);
        for at in 0..image.len() {
            let kept = image[at];
            for octet in 0..=255 {
                image[at] = octet;
                compare(&image, &PROBE, 2);
                compare(&image, &Call::Receive(vec![0x0B, 0x3C]), 12);
            }
            image[at] = kept;
        }
    }
}

#[test]
fn state_and_another_octet() {
    for place in [0, 13] {
        let start = ENTRY * place;
        let mut image = tables::named("fresh");
        for other in 1..ENTRY {
            for state in 0..=255 {
                for octet in 0..=255 {
                    image[start] = state;
                    image[start + other] = octet;
                    compare(&image, &PROBE, 2);
                }
            }
            image[start + other] = 0;
        }
    }
}

/// "an operation of its side": each state with each operation, at each place of each
/// side, behind sound ones.
#[test]
fn state_and_operation() {
    for place in 0..2 * PLACES {
        let (side, place) = (place / PLACES, place % PLACES);
        for state in 0..=9 {
            for operation in 0..=255 {
                for other in [0, 17, 18, 38, 59, 60] {
                    let mut entry = [0; ENTRY];
                    entry[0] = state;
                    for before in 0..place {
                        put(&mut entry, side, before, [before as u8, [59, 60][side]]);
                    }
                    put(&mut entry, side, place, [9, operation]);
                    if other != 0 {
                        put(&mut entry, 1 - side, 0, [9, other]);
                    }
                    let image = tables::image(&[(1, entry.to_vec())]);
                    check(&image, is_sound(&entry));
                }
            }
        }
    }
}

fn put(entry: &mut Entry, side: usize, place: usize, pair: [u8; 2]) {
    let at = 1 + 2 * PLACES * side + 2 * place;
    entry[at..at + 2].copy_from_slice(&pair);
}

/// The rule once more, by what the image of the places that are used would be.
fn is_sound(entry: &Entry) -> bool {
    let (own, peers) = (tables::owns_of(entry), tables::peers_of(entry));
    let is_side = |side: &[[u8; 2]], operations: &[u8]| {
        let mut ids: Vec<u8> = side.iter().map(|[id, _]| *id).collect();
        ids.sort();
        ids.dedup();
        let is_known = |[_, operation]: &[u8; 2]| operations.contains(operation);
        side.iter().all(is_known) && ids.len() == side.len()
    };
    let is_open = *entry == tables::open(&own, &peers);
    *entry == tables::CLOSED || is_open && is_side(&own, &OWN) && is_side(&peers, &PEER)
}

/// Every row of four pairs out of seven, on each side, with each state: places used
/// and not used, gaps, ids alone, equal ids, an operation of the other side.
#[test]
fn all_places() {
    let out_of = |ids: [u8; 7], operations: [u8; 7]| {
        let pair = |i: usize| [ids[i], operations[i]];
        [0, 1, 2, 3, 4, 5, 6].map(pair)
    };
    let ids = [0, 0, 1, 1, 2, 255, 3];
    let pairs = [
        out_of(ids, [0, 59, 59, 0, 17, 10, 60]),
        out_of(ids, [0, 60, 60, 0, 18, 61, 59]),
    ];
    let mut sound = 0;
    for side in 0..2 {
        for number in 0..7usize.pow(PLACES as u32) {
            for other in [[0, 0], pairs[1 - side][1], pairs[1 - side][2]] {
                for state in 0..=8 {
                    let mut entry = [0; ENTRY];
                    entry[0] = state;
                    for place in 0..PLACES {
                        let pair = number / 7usize.pow(place as u32) % 7;
                        put(&mut entry, side, place, pairs[side][pair]);
                    }
                    put(&mut entry, 1 - side, 0, other);
                    let at = [0, 6, 7, 13][number % 4];
                    let image = tables::image(&[(at, entry.to_vec())]);
                    check(&image, is_sound(&entry));
                    sound += u32::from(is_sound(&entry));
                }
            }
        }
    }
    // Rows of none to four out of four pairs, beside three forms of the other side;
    // and the closed entry. Each with one state, on either side.
    let rows = 1 + 4 + 4 * 3 + 4 * 3 * 2 + 4 * 3 * 2;
    assert_eq!(sound, 2 * (3 * rows + 1));
}

/// Each kind of damage, at each place, from each call.
#[test]
fn damaged() {
    let mut tally = Tally::default();
    for time in 0..TIMES {
        let mut c = Chance::new(5_000_000 + time);
        let sound = tables::random(&mut c);
        check(&sound, true);
        let (image, kind, number) = damage::damaged(&mut c, &sound);
        check(&image, false);
        tally.one_more();
        tally.count(KINDS[kind].0, number);
        let changed = damage::changed(&mut c, &sound);
        compare(&changed, &PROBE, 2);
    }
    tally.print();
    tally.check_named(KINDS);
}

/// Nothing is looked at before the image.
#[test]
fn damaged_from_each_call() {
    let calls = [
        Call::Receive(vec![]),
        Call::Receive(vec![0; 256]),
        Call::Receive(vec![0x7B, 0x3B]),
        Call::Begin(60, 1, vec![]),
        Call::Begin(59, 1, vec![]),
        Call::Invoke((2, 7), 60, 1, vec![]),
        Call::Result((2, 7), 0, vec![]),
        Call::Error((2, 7), 0, 2, vec![]),
        PROBE,
    ];
    for time in 0..TIMES / 20 {
        let mut c = Chance::new(6_000_000 + time);
        let sound = tables::random(&mut c);
        let (image, ..) = damage::damaged(&mut c, &sound);
        for call in &calls {
            for room in [0, 12] {
                assert_eq!(compare(&image, call, room).code(), 28);
            }
        }
    }
}

#[test]
fn other_lengths() {
    for name in ["fresh", "crowded"] {
        let image = [tables::named(name), vec![0; 80]].concat();
        for length in 0..=image.len() {
            for room in [0, 11, 12] {
                compare(&image[..length], &PROBE, room);
                let facts = compare(&image[..length], &Call::Receive(vec![]), room);
                assert_eq!(facts.code() == 28, length != 238);
            }
        }
    }
}
