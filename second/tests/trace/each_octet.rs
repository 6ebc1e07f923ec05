//! Every octet in the writer's lines: alone, before and behind a word, as a digit, where
//! a record goes on.

use crate::program::WRITER;

const AROUND: [(&str, &str); 6] = [
    ("", ""),
    ("", "received 41\nsent 42\n"),
    ("received", "41\nsent 42\n"),
    ("received 4", "\nsent 42\n"),
    ("received 41\n", "42\nsent 43"),
    ("received 41\n ", "# 42\nsent 43"),
];

#[test]
fn each_octet() {
    let mut taken = 0;
    for (before, behind) in AROUND {
        for octet in 0..=255 {
            let input = [before.as_bytes(), &[octet], behind.as_bytes()].concat();
            taken += usize::from(WRITER.compare(&input).error.is_empty());
        }
    }
    // In the order of the places: blanks, a line feed and #; a line feed and #; blanks;
    // digits; blanks and #; blanks, a line feed and #.
    assert_eq!(taken, 5 + 2 + 3 + 22 + 4 + 5);
}
