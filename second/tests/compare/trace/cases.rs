//! The readings' cases on the two calls: the files that are written, by adding record
//! after record; and of a file that is read the first block's own fault.

use super::notation::{file, records};
use super::rows::written;
use super::{compare, Asked};
use second::trace::block::{block, BLOCK, NUMBER, RECORD};
use second::trace::file::{self, Written};

const FILE: &str = include_str!("cases.txt");

fn cases(call: &str) -> Vec<(Vec<&'static str>, &'static str)> {
    let lines = FILE.lines().filter(|line| !line.starts_with('#'));
    let cases = lines.filter_map(|line| {
        let (left, facts) = line.split_once("->").expect("an arrow");
        let words: Vec<&str> = left.split_whitespace().collect();
        (words[1] == call).then(|| (words[2..].to_vec(), facts))
    });
    cases.collect()
}

/// The code, the first of the facts.
fn code(facts: &str) -> u8 {
    let code = facts.split(',').next().unwrap_or_default();
    code.trim().parse().expect("a code")
}

#[test]
fn written_with_the_calls() {
    let cases = cases("write");
    assert_eq!(cases.len(), 13, "the cases are there");
    for (words, facts) in cases {
        let records = records(&words);
        let written = written(&records);
        assert!(written == file::write(&records), "not the writer's file");
        assert_eq!(written.code, code(facts));
    }
}

/// A block at place 0 that is refused is refused by the call with the same code, but for
/// 36: its number is free.
#[test]
fn first_blocks() {
    let cases = cases("read");
    assert_eq!(cases.len(), 23, "the cases are there");
    for (words, facts) in cases {
        let file = file(&words);
        let Some(first) = file.chunks(BLOCK).next() else {
            continue;
        };
        let is_refused_there = facts.contains("place=0") || !facts.contains('=');
        let wanted = match code(facts) {
            NUMBER => 0,
            code if is_refused_there => code,
            _ => 0,
        };
        assert_eq!(compare(first, Asked::Add(0, &[0x41])).code(), wanted);
        let bad = if wanted == 0 { RECORD } else { wanted };
        assert_eq!(compare(first, Asked::Add(2, &[0x41])).code(), bad);
    }
}

/// "the block of two sent records of 255 and 245 octets FF has the sum F4 FB"
#[test]
fn wrapping_sum() {
    let empty = compare(&[0; BLOCK], Asked::Begin(0)).block;
    let one = compare(&empty, Asked::Add(1, &[0xFF; 255])).block;
    let two = compare(&one, Asked::Add(1, &[0xFF; 245]));
    assert!(two.is_added());
    assert_eq!(two.block[510..], [0xF4, 0xFB]);
    assert_eq!(two.block[4..8], [0x01, 0xF8, 0x01, 0xFF]);
}

/// "W1 as the one received record of a file is one block".
#[test]
fn w1() {
    let message = crate::notation::octets("0B3B1C10A10E02010502013C300604010F040141");
    let empty = compare(&[0xFF; BLOCK], Asked::Begin(0)).block;
    let facts = compare(&empty, Asked::Add(0, &message));
    let head = [0, 0, 0, 0, 0, 0x16, 0, 0x14];
    let wanted = [&head[..], &message, &[0; 482], &[0x02, 0x22]].concat();
    assert_eq!(facts.block, wanted);
    assert_eq!(facts.block, block(0, &wanted[6..28]));
    let Written { file, .. } = written(&file::read(&wanted).records);
    assert_eq!(file, wanted);
}
