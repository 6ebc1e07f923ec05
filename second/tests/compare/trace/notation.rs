//! The arguments of the case file: RECORDS and BLOCKS.

use crate::notation::octets;
use second::trace::block::{block, sum, BLOCK, SUM_AT, USED_AT};
use second::trace::record::Record;

/// "D.N is a record of direction D with N octets 41, D.NxT is T of them."
pub fn records(words: &[&str]) -> Vec<Record> {
    words.iter().flat_map(|word| row(word)).collect()
}

fn row(word: &str) -> Vec<Record> {
    let (direction, lengths) = word.split_once('.').expect("D.N");
    let (length, times) = lengths.split_once('x').unwrap_or((lengths, "1"));
    let record = Record {
        direction: direction.parse().expect("a direction"),
        message: vec![0x41; length.parse().expect("a length")],
    };
    vec![record; times.parse().expect("a count")]
}

/// "NUMBER:RECORDS:CHANGES is a sound block with these record octets, then changed";
/// "zero and ff are blocks of 512 such octets; +N is N octets 00 at the end".
pub fn file(words: &[&str]) -> Vec<u8> {
    words.iter().flat_map(|word| part(word)).collect()
}

fn part(word: &str) -> Vec<u8> {
    if let Some(count) = word.strip_prefix('+') {
        return vec![0x00; count.parse().expect("a count")];
    }
    match word {
        "zero" => return vec![0x00; BLOCK],
        "ff" => return vec![0xFF; BLOCK],
        _ => (),
    }
    let mut parts = word.split(':');
    let number = parts.next().expect("a number");
    let records = octets(parts.next().expect("record octets"));
    let block = block(number.parse().expect("a number"), &records);
    parts.fold(block, changed)
}

/// "sum (one too high), used=N or rest (last octet of the records' place is 1), both
/// with a right sum"
fn changed(mut block: Vec<u8>, change: &str) -> Vec<u8> {
    let mut too_high = 0;
    match (change, change.strip_prefix("used=")) {
        ("sum", _) => too_high = 1,
        ("rest", _) => block[SUM_AT - 1] = 1,
        (_, Some(used)) => {
            let used: u16 = used.parse().expect("a count");
            block[USED_AT..USED_AT + 2].copy_from_slice(&used.to_be_bytes());
        }
        _ => panic!("no such change: {change}"),
    }
    let sum = sum(&block).wrapping_add(too_high);
    block[SUM_AT..].copy_from_slice(&sum.to_be_bytes());
    block
}
