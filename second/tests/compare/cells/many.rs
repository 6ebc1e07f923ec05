//! Texts and octets by chance, many of them.

use super::room::around;
use super::{compare, Asked, Facts};
use crate::chance::Chance;
use crate::tally::Tally;
use crate::texts;
use second::septets::{pack, send, CR};

/// Strings of each kind; each is laid out once with room enough, and once with less,
/// just enough or more.
const STRINGS: u64 = 50_000;
/// A little more than the codec shows.
const LONGEST: usize = 200;

/// All numbers of cells.
const CELLS: [u8; 41] = {
    let mut cells = [0; 41];
    let mut i = 0;
    while i < cells.len() {
        cells[i] = i as u8;
        i += 1;
    }
    cells
};

/// What must occur: the codes; lines broken at a space and without one, by their cells,
/// and last lines; counts of lines; pads that are dropped (1), and other last CRs.
const LAID: [(&str, &[u8]); 6] = [
    ("code", &[0, 41]),
    ("broken at a space", &CELLS),
    ("broken after", &[40]),
    ("last line", &CELLS),
    ("more than a line", &[0, 1]),
    ("last CR dropped", &[0, 1]),
];

fn add(tally: &mut Tally, string: &[u8], facts: &Facts) {
    tally.one_more();
    tally.count("code", facts.laid.code);
    let [broken @ .., last, _] = facts.lines() else {
        return;
    };
    for line in broken.chunks(2) {
        match line[1] {
            0 => tally.count("broken after", line[0]),
            _ => tally.count("broken at a space", line[0]),
        }
    }
    tally.count("last line", *last);
    tally.count("more than a line", (!broken.is_empty()).into());
    let septets = second::septets::unpack(string);
    if septets.last() == Some(&CR) {
        tally.count("last CR dropped", string.len().is_multiple_of(7).into());
    }
}

fn lay(c: &mut Chance, string: &[u8], tally: &mut Tally) {
    let enough = compare(&Asked::of(string));
    add(tally, string, &enough);
    let asked = Asked {
        text_length: c.pick(&around(enough.laid.characters)),
        lines_length: c.pick(&around(2 * enough.laid.lines)),
        ..Asked::of(string)
    };
    add(tally, string, &compare(&asked));
}

#[test]
fn rows_of_a_sender() {
    let mut tally = Tally::default();
    for time in 0..STRINGS {
        let mut c = Chance::new(2_000_000 + time);
        let row = texts::row(&mut c, LONGEST);
        lay(&mut c, &send(&row), &mut tally);
    }
    tally.print();
    tally.check_named(LAID);
}

#[test]
fn rows_as_they_are() {
    let mut tally = Tally::default();
    for time in 0..STRINGS {
        let mut c = Chance::new(3_000_000 + time);
        let row = texts::row(&mut c, LONGEST);
        lay(&mut c, &pack(&row), &mut tally);
    }
    tally.print();
    tally.check_named(LAID);
}

#[test]
fn octets() {
    let mut tally = Tally::default();
    for time in 0..STRINGS {
        let mut c = Chance::new(4_000_000 + time);
        let length = match c.below(3) {
            0 => c.below(40),
            1 => c.below(26) * 7,
            _ => c.below(LONGEST),
        };
        let mut string = c.octets(length);
        // A CR at the end is rare by chance.
        if let (Some(last), true) = (string.last_mut(), c.one_in(3)) {
            *last = 2 * CR + (*last & 1);
        }
        lay(&mut c, &string, &mut tally);
    }
    tally.print();
    tally.check_named(LAID);
}
