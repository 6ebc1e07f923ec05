//! Strings that the codec never shows, far over 160 octets: "the call takes them".

use super::{compare, Asked};
use crate::chance::Chance;
use crate::texts;
use second::septets::{pack, send};

/// More lines than an octet counts, more characters than two octets count.
const LENGTHS: [usize; 6] = [183, 184, 1_000, 2_047, 21_000, 70_000];

#[test]
fn far_over() {
    let mut c = Chance::new(71);
    for length in LENGTHS {
        let row = texts::row_of(&mut c, length);
        for string in [send(&row), pack(&row), pack(&vec![0x20; length])] {
            let facts = compare(&Asked::of(&string));
            assert_eq!(facts.laid.code, 0);
        }
    }
}

/// "No octets": one line of no cells.
#[test]
fn none() {
    let facts = compare(&Asked::of(&[]));
    assert_eq!(
        (facts.laid.code, facts.text(), facts.lines()),
        (0, &[][..], &[0, 0][..])
    );
}
