//! Every coding scheme, before all else.

use super::{compare, Asked, SCHEME};
use crate::chance::Chance;
use crate::texts;
use second::septets::send;

const STRINGS: u64 = 12;

#[test]
fn schemes() {
    for time in 0..STRINGS {
        let mut c = Chance::new(6_000_000 + time);
        let string = match time {
            0 => Vec::new(),
            1 => vec![0x41],
            _ => send(&texts::row(&mut c, 182)),
        };
        for scheme in 0..=255 {
            for text_length in [0, 1, 182] {
                for lines_length in [0, 1, 2, 18] {
                    let asked = Asked {
                        scheme,
                        text_length,
                        lines_length,
                        ..Asked::of(&string)
                    };
                    let facts = compare(&asked);
                    assert_eq!(facts.laid.code == 40, scheme != SCHEME);
                }
            }
        }
    }
}
