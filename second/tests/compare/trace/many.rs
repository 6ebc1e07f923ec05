//! Blocks by chance, sound and changed in each of the ways, with records sound and bad.

use super::{compare, Asked};
use crate::blocks::{self, CHANGES};
use crate::chance::Chance;
use crate::tally::Tally;
use second::trace::block::BLOCK;

const BLOCKS: u64 = 40_000;
/// Records that are added to each.
const ADDED: usize = 3;

/// What must occur: every code of a sound block and of a changed one; added or not.
const MET: [(&str, &[u8]); 3] = [
    ("sound block", &[0, 35]),
    ("changed block", &[0, 33, 34, 35]),
    ("fits", &[0, 1]),
];

/// Any direction and message, mostly such as are sound.
fn record(c: &mut Chance) -> (u8, Vec<u8>) {
    let record = blocks::record(c);
    match c.below(10) {
        0 => (c.octet(), record.message),
        1 => (record.direction, Vec::new()),
        2 => {
            let length = c.range(256, 600);
            (record.direction, c.octets(length))
        }
        _ => (record.direction, record.message),
    }
}

fn add_some(c: &mut Chance, block: &[u8], name: &'static str, tally: &mut Tally) {
    assert_eq!(block.len(), BLOCK);
    let mut block = block.to_vec();
    for _ in 0..ADDED {
        let (direction, message) = record(c);
        let facts = compare(&block, Asked::Add(direction, &message));
        tally.one_more();
        tally.count(name, facts.code());
        if facts.code() == 0 {
            tally.count("fits", facts.traced.added);
        }
        block = facts.block;
    }
}

#[test]
fn by_chance() {
    let mut tally = Tally::default();
    for time in 0..BLOCKS {
        let mut c = Chance::new(16_000_000 + time);
        let number = blocks::number(&mut c);
        let mut block = blocks::sound(&mut c, number);
        add_some(&mut c, &block, "sound block", &mut tally);
        for _ in 0..c.pick(&[1, 1, 1, 2, 3]) {
            let (_, change) = c.pick(&CHANGES);
            change(&mut c, &mut block);
        }
        add_some(&mut c, &block, "changed block", &mut tally);
    }
    tally.print();
    tally.check_named(MET);
}

/// Each way alone, so that each is seen to do what it says.
#[test]
fn each_change() {
    for (name, change) in CHANGES {
        let mut tally = Tally::default();
        for time in 0..2_000 {
            let mut c = Chance::new(17_000_000 + time);
            let mut block = blocks::sound(&mut c, 0);
            change(&mut c, &mut block);
            add_some(&mut c, &block, name, &mut tally);
        }
        let codes: &'static [u8] = match name {
            "a bit" | "noise" | "ff" => &[33],
            // The octet, or the sum, may be the right one; a record may be bad.
            "an octet" | "the sum" => &[0, 33, 35],
            "octets swapped" => &[0, 33, 34, 35],
            "zeros" | "the rest" | "a direction" | "a length" => &[0, 35],
            "noise, mended" => &[34, 35],
            _ => &[0, 34, 35],
        };
        tally.print();
        assert!(tally.has_no_other(name, codes), "another code");
    }
}
