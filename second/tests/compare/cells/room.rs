//! Texts and lines of every length around what is needed: what is written, and that
//! nothing else is.

use super::{compare, Asked, Facts};
use crate::chance::Chance;
use crate::texts;
use second::ffi::{self, Laid};
use second::septets::send;

const STRINGS: u64 = 1_500;
const LARGE: usize = 400;

/// No length, a little less than is needed, just so much, a little more, a large one.
pub fn around(needed: usize) -> [usize; 8] {
    let less = |by: usize| needed.saturating_sub(by);
    [
        0,
        1,
        less(2),
        less(1),
        needed,
        needed + 1,
        needed + 2,
        LARGE,
    ]
}

fn rooms<'a>(string: &'a [u8], enough: &Facts) -> Vec<Asked<'a>> {
    let asked = |text_length, lines_length| Asked {
        text_length,
        lines_length,
        ..Asked::of(string)
    };
    let texts = around(enough.laid.characters).into_iter();
    let rooms = texts.flat_map(|text| {
        let lines = around(2 * enough.laid.lines);
        lines.map(|lines| asked(text, lines))
    });
    rooms.collect()
}

/// 41, or all that is written with room enough and not a place more.
fn check(string: &[u8]) {
    let enough = compare(&Asked::of(string));
    assert_eq!(enough.laid.code, 0);
    for asked in rooms(string, &enough) {
        let facts = compare(&asked);
        let fits = asked.text_length >= enough.laid.characters
            && asked.lines_length >= 2 * enough.laid.lines;
        let (mut text, mut lines) = asked.marks();
        if fits {
            text[..enough.laid.characters].copy_from_slice(enough.text());
            lines[..2 * enough.laid.lines].copy_from_slice(enough.lines());
            assert_eq!(facts.laid, enough.laid);
        } else {
            let refused = Laid {
                code: 41,
                ..Laid::default()
            };
            assert_eq!(facts.laid, refused);
        }
        assert!(facts.text == text && facts.lines == lines);
    }
}

#[test]
fn around_what_is_needed() {
    for time in 0..STRINGS {
        let mut c = Chance::new(5_000_000 + time);
        let row = texts::row(&mut c, 182);
        check(&send(&row));
    }
}

/// Each count of characters, with and without a space to break at.
#[test]
fn around_each_length() {
    for length in 0..=182 {
        check(&send(&vec![0x41; length]));
        check(&send(&vec![0x20; length]));
    }
}

/// "NULL with length 0"
#[test]
fn of_null() {
    let refused = |code| Laid {
        code,
        ..Laid::default()
    };
    assert_eq!(ffi::cells_of_null(0x44, &mut []), refused(40));
    assert_eq!(ffi::cells_of_null(0x0F, &mut []), refused(41));
    let mut lines = [0xA5; 3];
    assert_eq!(ffi::cells_of_null(0x44, &mut lines), refused(40));
    assert_eq!(lines, [0xA5; 3]);
    let laid = ffi::cells_of_null(0x0F, &mut lines);
    assert_eq!((laid.code, laid.characters, laid.lines), (0, 0, 1));
    assert_eq!(lines, [0, 0, 0xA5]);
}
