//! "182 characters and 9 lines (18 octets) are room enough for every text shown".

use super::notation::septets;
use super::{compare, Asked, Facts};
use crate::chance::Chance;
use crate::texts;
use second::cells::{CHARACTERS, LINE_OCTETS};
use second::septets::{pack, send};

const STRINGS: u64 = 12_000;
/// The longest string that is shown.
const LONGEST: usize = 160;
/// "The most lines", of C19.
const WORST: &str = "20 41*40 20*2 41*40 20*2 41*40 20*2 41*40 20 41*14";

fn lay(string: &[u8], text_length: usize, lines_length: usize) -> Facts {
    compare(&Asked {
        text_length,
        lines_length,
        ..Asked::of(string)
    })
}

/// How many characters and lines there are; there is room for them.
fn suffices(string: &[u8]) -> (usize, usize) {
    assert!((1..=LONGEST).contains(&string.len()), "a string is shown");
    let laid = lay(string, CHARACTERS, LINE_OCTETS).laid;
    assert_eq!(laid.code, 0, "room enough");
    (laid.characters, laid.lines)
}

#[test]
fn worst() {
    let row = septets(WORST);
    let string = send(&row);
    assert_eq!(string.len(), LONGEST);
    assert_eq!(suffices(&string), (CHARACTERS, LINE_OCTETS / 2));
    assert_eq!(lay(&string, CHARACTERS - 1, LINE_OCTETS).laid.code, 41);
    assert_eq!(lay(&string, CHARACTERS, LINE_OCTETS - 1).laid.code, 41);
    // Each space taken out, and each put in: none has more lines.
    for place in 0..row.len() {
        let mut changed = row.clone();
        changed[place] ^= 0x20 ^ 0x41;
        suffices(&send(&changed));
    }
}

/// Near the worst: a space, a word of about forty, a space.
#[test]
fn many_lines() {
    let mut most = 0;
    for time in 0..STRINGS {
        let mut c = Chance::new(7_000_000 + time);
        let mut row = Vec::new();
        while row.len() < CHARACTERS {
            let word = vec![0x41; c.pick(&[39, 40, 40, 40, 40, 41, 0])];
            row.extend([&[0x20], &word[..], &[0x20]].concat());
        }
        row.truncate(CHARACTERS - c.pick(&[0, 0, 0, 1, 6, 7]));
        most = most.max(suffices(&send(&row)).1);
    }
    assert_eq!(most, LINE_OCTETS / 2);
}

#[test]
fn by_chance() {
    for time in 0..STRINGS {
        let mut c = Chance::new(8_000_000 + time);
        let row = texts::row(&mut c, CHARACTERS);
        let length = c.range(1, LONGEST);
        for string in [send(&row), pack(&row), c.octets(length)] {
            if !string.is_empty() {
                suffices(&string);
            }
        }
    }
}

/// The most characters: no escape in 160 octets.
#[test]
fn most_characters() {
    for octet in 0..=255 {
        suffices(&[octet; LONGEST]);
    }
    assert_eq!(suffices(&[0x00; LONGEST]).0, CHARACTERS);
}
