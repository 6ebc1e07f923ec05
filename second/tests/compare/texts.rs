//! Texts by chance, as rows of septets: spaces, escapes, CRs, words of about forty.

use crate::chance::Chance;
use second::alphabet::ESCAPE;
use second::septets::CR;

const SPACE: u8 = 0x20;

/// A row of at most so many septets, often of a length at which a line breaks, or one
/// at which a sender adds a CR.
pub fn row(c: &mut Chance, longest: usize) -> Vec<u8> {
    let length = match c.below(8) {
        0..=1 => c.range(38, 46).min(longest),
        2 => c.range(78, 90).min(longest),
        3 => longest - c.below(9).min(longest),
        4 => c.below(20).min(longest),
        _ => c.below(longest + 1),
    };
    let length = match c.below(4) {
        0 => length / 8 * 8,
        1 => (length / 8 * 8).saturating_sub(1),
        _ => length,
    };
    row_of(c, length)
}

/// A row of this length.
pub fn row_of(c: &mut Chance, length: usize) -> Vec<u8> {
    let kind = c.below(7);
    let mut row = Vec::new();
    while row.len() < length {
        row.extend(piece(c, kind));
    }
    row.truncate(length);
    if c.one_in(3) {
        put_end(c, &mut row);
    }
    row
}

/// A part of a row of this kind.
fn piece(c: &mut Chance, kind: usize) -> Vec<u8> {
    match kind {
        // Words that fill a line, or nearly, or pass it.
        0 => {
            let cells = c.range(37, 43);
            let spaces = c.pick(&[1, 1, 1, 2, 3]);
            [word(c, cells), self::spaces(c, spaces)].concat()
        }
        // Words as they are written.
        1 => {
            let cells = c.range(1, 14);
            [word(c, cells), spaces(c, 1)].concat()
        }
        // What is treated in a way of its own.
        2 => vec![c.pick(&[0x00, 0x0A, CR, CR, ESCAPE, ESCAPE, SPACE, SPACE, 0x41, 0x65])],
        // Mostly spaces.
        3 => {
            let cells = c.pick(&[0, 0, 0, 0, 1, 2, 40]);
            let spaces = c.range(1, 42);
            [word(c, cells), self::spaces(c, spaces)].concat()
        }
        4 => vec![c.below(128) as u8],
        // Spaces before what fills a line, for lines of no cells.
        5 => {
            let cells = c.pick(&[39, 40, 40, 40, 41]);
            [spaces(c, 1), word(c, cells), spaces(c, 1)].concat()
        }
        // A space now and then.
        _ => {
            let cells = c.range(0, 45);
            let spaces = usize::from(c.flip());
            [word(c, cells), self::spaces(c, spaces)].concat()
        }
    }
}

/// So many cells without a space, one in ten by an escape.
fn word(c: &mut Chance, cells: usize) -> Vec<u8> {
    let mut word = Vec::new();
    for _ in 0..cells {
        match c.below(20) {
            0 => word.extend([ESCAPE, 0x65]),
            1 => word.extend([ESCAPE, c.pick(&[0x0A, 0x0D, 0x14, 0x28, 0x40, 0x41, 0x00])]),
            2 => word.push(c.pick(&[0x0A, CR])),
            3 => word.push(c.range(0x00, 0x1A) as u8),
            _ => word.push(c.range(0x21, 0x7F) as u8),
        }
    }
    word
}

/// So many spaces, few of them by an escape.
fn spaces(c: &mut Chance, count: usize) -> Vec<u8> {
    let mut spaces = Vec::new();
    for _ in 0..count {
        match c.below(16) {
            0 => spaces.extend([ESCAPE, ESCAPE]),
            1 => spaces.extend([ESCAPE, SPACE]),
            _ => spaces.push(SPACE),
        }
    }
    spaces
}

/// Another end, one that is treated in a way of its own.
fn put_end(c: &mut Chance, row: &mut [u8]) {
    let ends: [&[u8]; 8] = [
        &[CR],
        &[CR],
        &[CR, CR],
        &[ESCAPE],
        &[ESCAPE, CR],
        &[ESCAPE, ESCAPE],
        &[SPACE],
        &[0x00],
    ];
    let end = c.pick(&ends);
    let from = row.len().saturating_sub(end.len());
    for (septet, last) in row[from..].iter_mut().zip(end) {
        *septet = *last;
    }
}
