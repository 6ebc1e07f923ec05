//! Use counts: all of them on some blocks, and those around the right one on many.

use super::{compare, Asked};
use crate::blocks::{self, mend, set_used};
use crate::chance::Chance;
use second::trace::block::{self, block, RECORD, ROOM, USED};
use second::trace::record::octets;

const BLOCKS: u64 = 300;

/// The code where the use count says so, with a right sum.
fn code(before: &[u8], used: usize) -> u8 {
    let mut after = before.to_vec();
    set_used(&mut after, used);
    mend(&mut after);
    let code = compare(&after, Asked::Add(0, &[0x41])).code();
    // A bad record is seen behind the block's own fault.
    let wanted = match code {
        0 => RECORD,
        fault => fault,
    };
    assert_eq!(compare(&after, Asked::Add(0, &[])).code(), wanted);
    code
}

#[test]
fn all() {
    for records in [
        vec![],
        vec![0x00, 0x01, 0x41],
        [vec![1, 255], vec![0xFF; 255]].concat(),
    ] {
        let before = block(0, &records);
        for used in 0..=65_535 {
            let wanted = match used {
                _ if used > ROOM => USED,
                _ if used == records.len() => 0,
                _ => RECORD,
            };
            assert_eq!(code(&before, used), wanted);
        }
    }
}

/// Where messages hold what looks like records, a wrong count may end with one, and the
/// rest still isn't zero; where they are zeros, the rest is.
#[test]
fn near_the_right_one() {
    for time in 0..BLOCKS {
        let mut c = Chance::new(13_000_000 + time);
        let before = block(0, &octets(&blocks::records(&mut c)));
        let right = block::used(&before);
        let near = right.saturating_sub(6)..=right + 6;
        for used in near.chain([0, 1, 2, 3, 502, 503, 504, 505, 506, 510, 511, 512, 513]) {
            let code = code(&before, used);
            assert_eq!(code == USED, used > ROOM);
            assert!(used != right || code == 0);
        }
        for high in 0..=255 {
            code(&before, 256 * high + right % 256);
        }
    }
}

/// A block whose records are records under many use counts.
#[test]
fn records_in_records() {
    // Each record holds what would be records of its own.
    for inner in 1..=120 {
        let message: Vec<u8> = [0x00, 0x01, 0x00].repeat(inner)[..inner].to_vec();
        let records = [vec![0x00, inner as u8], message].concat();
        let before = block(0, &records);
        for used in 0..=records.len() + 4 {
            code(&before, used);
        }
    }
}
