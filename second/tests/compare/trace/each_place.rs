//! One octet changed at each of the 512 places, with the sum as it was and mended.

use super::{compare, Asked};
use crate::blocks::{self, mend};
use crate::chance::Chance;
use crate::tally::Tally;
use second::trace::block::{block, BLOCK, SUM};
use second::trace::record::octets;

/// What must occur where the sum is mended.
const MENDED: [(&str, &[u8]); 1] = [("code", &[0, 34, 35])];
/// Blocks by chance, each changed to a few values at each place.
const BLOCKS: u64 = 20;

/// Any such change is 33, before a bad record is seen.
fn changed(before: &[u8], place: usize, octet: u8, tally: &mut Tally) {
    let mut after = before.to_vec();
    after[place] = octet;
    if after == before {
        return;
    }
    assert_eq!(compare(&after, Asked::Add(2, &[])).code(), SUM);
    assert_eq!(compare(&after, Asked::Add(1, &[0x42])).code(), SUM);
    mend(&mut after);
    let facts = compare(&after, Asked::Add(1, &[0x42]));
    tally.one_more();
    tally.count("code", facts.code());
}

#[test]
fn each_octet() {
    let mut tally = Tally::default();
    let before = block(1, &[0x00, 0x02, 0x41, 0x42, 0x01, 0x01, 0x43]);
    for place in 0..BLOCK {
        for octet in 0..=255 {
            changed(&before, place, octet, &mut tally);
        }
    }
    tally.print();
    tally.check_named(MENDED);
}

#[test]
fn by_chance() {
    let mut tally = Tally::default();
    for time in 0..BLOCKS {
        let mut c = Chance::new(12_000_000 + time);
        let records = octets(&blocks::records(&mut c));
        let before = block(blocks::number(&mut c), &records);
        for place in 0..BLOCK {
            let octet = before[place];
            let any = c.octet();
            for octet in [
                0,
                1,
                2,
                255,
                octet ^ 1,
                octet ^ 128,
                octet.wrapping_add(1),
                any,
            ] {
                changed(&before, place, octet, &mut tally);
            }
        }
    }
    tally.print();
    tally.check_named(MENDED);
}
