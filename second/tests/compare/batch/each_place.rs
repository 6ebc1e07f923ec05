//! Slices cut, changed, put in and short of room at each place.

use super::compare;
use crate::chance::Chance;
use crate::notation::octets;
use crate::records::{conversation, records};
use crate::tables;
use second::batch::SLOT;

/// W1, W3, W5, W6, one octet, a 38, a Reject, an empty REGISTER and its release, another
/// protocol.
const ROW: &str = "14 0B3B1C10A10E02010502013C300604010F040141 \
    13 0B3A10A10E02010502013C300604010F040141 03 9B3A00 02 0B3C 01 0B \
    0C 0B3B1C08A106020107020126 0A 0B3A07A4050500800100 04 1B3B1C00 02 1B2A 02 0000";

/// What the whole row gives.
const VERDICTS: [u8; 10] = [0, 3, 2, 2, 1, 0, 4, 0, 5, 7];

fn lent(length: usize) -> Vec<u8> {
    (0..length)
        .map(|place| (place * 29 % 241) as u8 ^ 0x5A)
        .collect()
}

#[test]
fn whole() {
    let facts = compare(&tables::named("fresh"), &octets(ROW), &lent(200));
    let verdicts: Vec<u8> = facts.slots().map(|slot| slot[0]).collect();
    assert_eq!(verdicts, VERDICTS);
}

#[test]
fn cuts() {
    cut(&tables::named("fresh"), &octets(ROW), VERDICTS.len());
    for time in 0..30 {
        let mut c = Chance::new(12_000_000 + time);
        let table = tables::random(&mut c);
        let count = c.range(1, 8);
        let messages = conversation(&mut c, &table, count);
        cut(&table, &records(&messages), count);
    }
}

/// A slice of so many records, cut at each place: as many are whole.
fn cut(table: &[u8], slice: &[u8], count: usize) {
    let mut whole = 0;
    for end in 0..=slice.len() {
        let facts = compare(table, &slice[..end], &lent(SLOT * count + end % 3));
        if facts.batched.code == 0 {
            assert_eq!(facts.batched.slots, whole);
            whole += 1;
        }
    }
    assert_eq!(whole, count + 1);
}

#[test]
fn changes() {
    let table = tables::named("w1");
    let slice = octets("03 9B3A00 02 0B3C 01 0B 05 0B3A02A500 0100 03 1B3A00 04 6B3B1C00 02 6B2A");
    for at in 0..slice.len() {
        for octet in 0..=255 {
            let mut changed = slice.clone();
            changed[at] = octet;
            compare(&table, &changed, &lent(SLOT * 60));
        }
    }
}

/// A zero record, and octets of all kinds, put in at each place.
#[test]
fn put_in() {
    let table = tables::named("fresh");
    let slice = octets(ROW);
    for at in 0..=slice.len() {
        for octet in [0x00, 0x01, 0x02, 0x0B, 0x7F, 0x80, 0xFF] {
            let mut changed = slice.clone();
            changed.insert(at, octet);
            compare(&table, &changed, &lent(SLOT * 60));
        }
    }
}

/// Each length of the output, from tables sound and damaged.
#[test]
fn rooms() {
    let slice = octets(ROW);
    let needed = SLOT * VERDICTS.len();
    for name in ["fresh", "w1", "eight", "crowded"] {
        for room in 0..=needed + 40 {
            let facts = compare(&tables::named(name), &slice, &lent(room));
            let code = if room < needed { 31 } else { 0 };
            assert_eq!(facts.batched.code, code);
        }
    }
    for name in ["damaged", "short"] {
        for room in 0..=needed + 40 {
            for slice in [&slice[..], &slice[..room % slice.len()]] {
                let facts = compare(&tables::named(name), slice, &lent(room));
                assert_eq!(facts.batched.code, 28);
            }
        }
    }
}
