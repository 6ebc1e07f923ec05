//! "Any length but 512 is 32, in both", whatever stands there and whatever is added.

use super::{compare, Asked};
use crate::blocks;
use crate::chance::Chance;
use second::trace::block::{block, BLOCK, SHORT};

const LONGEST: usize = 2 * BLOCK;

/// So many octets: of sound blocks one behind the other, of blocks with a wrong sum, or
/// of noise.
fn slices(c: &mut Chance, length: usize) -> [Vec<u8>; 4] {
    let row = |first: Vec<u8>, second: Vec<u8>| [first, second].concat()[..length].to_vec();
    let records = [0x00, 0x01, 0x41];
    [
        row(block(0, &[]), block(0, &[])),
        row(block(0, &records), block(1, &records)),
        row(blocks::sound(c, 7), vec![0xFF; BLOCK]),
        c.octets(length),
    ]
}

#[test]
fn each_length() {
    let mut c = Chance::new(91);
    let long = vec![0x41; 600];
    for length in 0..=LONGEST {
        for slice in slices(&mut c, length) {
            for number in [0, 1, 0x0102_0304, u32::MAX] {
                let facts = compare(&slice, Asked::Begin(number));
                assert_eq!((facts.code(), facts.is_added()), expected(length));
            }
            for direction in [0, 1, 2, 255] {
                for octets in [0, 1, 255, 256, 600] {
                    let facts = compare(&slice, Asked::Add(direction, &long[..octets]));
                    assert_eq!(facts.code() == SHORT, length != BLOCK);
                }
            }
        }
    }
}

fn expected(length: usize) -> (u8, bool) {
    match length {
        BLOCK => (0, true),
        _ => (SHORT, false),
    }
}
