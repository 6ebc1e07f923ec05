//! Files broken by chance: what the reader and salvage make of them, and the laws of
//! what salvage writes.

use crate::chance::Chance;
use crate::count::Count;
use crate::files;
use crate::program::{refusal, READER, SALVAGE};
use second::trace::block::{self, BLOCK};
use second::trace::lines::of_record;

const FILES: u64 = 2_400;
/// Files whose salvage is looked at twice.
const LAWS: u64 = 600;
const NOISE: u64 = 40;

/// What must occur often.
const MET: [&str; 13] = [
    "read to the end",
    "block refused 32",
    "block refused 33",
    "block refused 34",
    "block refused 35",
    "block refused 36",
    "number dropped 33",
    "number dropped 34",
    "number dropped 35",
    "number renumbered 36",
    "place dropped 32",
    "nothing listed",
    "several listed",
];

/// The reader and salvage on this file.
fn meet(file: &[u8], count: &mut Count) -> Vec<u8> {
    let read = READER.compare(file);
    match refusal(&read.output) {
        Some((_, fault)) => count.add(format!("block refused {fault}")),
        None => count.add("read to the end"),
    }
    let salvaged = SALVAGE.compare(file);
    let list = String::from_utf8(salvaged.error).expect("ASCII");
    for line in list.lines() {
        let words: Vec<&str> = line.split(' ').collect();
        count.add([words[0], words[2], words[3]].join(" "));
    }
    match list.lines().count() {
        0 => count.add("nothing listed"),
        1 => (),
        _ => count.add("several listed"),
    }
    salvaged.output
}

/// "what comes out is read without refusal, holds the records of the sound blocks in
/// order, and salvage of it changes nothing"
fn laws(file: &[u8], mended: &[u8]) {
    let sound = file
        .chunks(BLOCK)
        .filter_map(|block| block::read(block).ok());
    let lines = sound.flatten().flat_map(|record| of_record(&record));
    let lines: String = lines.map(|line| line + "\n").collect();
    let read = READER.compare(mended);
    assert!(read.output == lines.as_bytes(), "other records");
    let again = SALVAGE.compare(mended);
    assert!(again.output == mended, "salvage twice changes something");
    assert!(again.error.is_empty(), "salvage twice lists something");
}

#[test]
fn by_chance() {
    let mut count = Count::default();
    for time in 0..FILES {
        let mut c = Chance::new(21_000_000 + time);
        let file = files::broken(&mut c);
        let mended = meet(&file, &mut count);
        if time < LAWS {
            laws(&file, &mended);
        }
    }
    count.check(FILES / 50, &MET);
}

/// Of a file of three blocks: cut behind each octet near an edge, and at some others.
#[test]
fn cut() {
    let mut count = Count::default();
    let mut c = Chance::new(22);
    let records = [0x00, 0x03, 0x41, 0x42, 0x43];
    let file: Vec<u8> = (0..3)
        .flat_map(|number| block::block(number, &records))
        .collect();
    let near = |edge: usize| edge.saturating_sub(7)..=edge + 7;
    let lengths = [0, BLOCK, 2 * BLOCK].into_iter().flat_map(near);
    let others: Vec<usize> = (0..30).map(|_| c.below(file.len())).collect();
    for length in lengths.chain(others) {
        let mended = meet(&file[..length], &mut count);
        assert_eq!(mended, file[..length / BLOCK * BLOCK]);
    }
    count.check(
        3,
        &["block refused 32", "read to the end", "place dropped 32"],
    );
}

#[test]
fn noise() {
    let mut count = Count::default();
    for time in 0..NOISE {
        let mut c = Chance::new(23_000_000 + time);
        let length = match c.flip() {
            true => c.below(20 * BLOCK),
            false => c.below(20) * BLOCK,
        };
        let noise = match c.below(3) {
            0 => vec![c.pick(&[0x00, 0x01, 0xFF, b'\n', b' ']); length],
            _ => c.octets(length),
        };
        let mended = meet(&noise, &mut count);
        laws(&noise, &mended);
    }
    count.check(1, &["block refused 33", "number dropped 33"]);
}
