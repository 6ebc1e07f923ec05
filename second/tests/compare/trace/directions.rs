//! Every direction with every length of message: "a direction neither 0 nor 1, no
//! octets, over 255 octets" is 35, in a sound block.

use super::{compare, Asked};
use second::trace::block::{block, RECORD};

const LONGEST: usize = 600;

#[test]
fn each_direction_and_length() {
    let message: Vec<u8> = (0..LONGEST).map(|place| (place * 7) as u8 | 1).collect();
    let before = block(3, &[0x01, 0x02, 0x41, 0x42]);
    for direction in 0..=255 {
        for length in 0..=LONGEST {
            let facts = compare(&before, Asked::Add(direction, &message[..length]));
            let is_sound = direction < 2 && (1..=255).contains(&length);
            let wanted = match is_sound {
                true => (0, true),
                false => (RECORD, false),
            };
            assert_eq!((facts.code(), facts.is_added()), wanted);
        }
    }
}

/// A length that two octets, or four, would cut to a sound one.
#[test]
fn far_over() {
    let message = vec![0x41; 65_536 + 300];
    let before = block(0, &[]);
    for length in [512, 513, 65_535, 65_536, 65_537, 65_536 + 255] {
        let facts = compare(&before, Asked::Add(0, &message[..length]));
        assert_eq!((facts.code(), facts.is_added()), (RECORD, false));
    }
}
