//! Every length of message in a block with every room that is left near it: "A record
//! takes its length and two octets."

use super::{compare, Asked};
use second::trace::block::{self, ROOM};
use second::trace::record::{octets, Record};

/// Records that take just so many octets, at least 3 or none.
fn filling(octets: usize) -> Vec<Record> {
    let lengths = match octets {
        0 => vec![],
        3..=257 => vec![octets - 2],
        258..=260 => vec![1, octets - 5],
        _ => vec![255, octets - 259],
    };
    let records = lengths.into_iter().map(|length| Record {
        direction: (length % 2) as u8,
        message: vec![length as u8; length],
    });
    records.collect()
}

#[test]
fn each_room() {
    let message = [0x41; 300];
    for used in (0..=ROOM).filter(|used| ![1, 2].contains(used)) {
        let before = block::block(used as u32, &octets(&filling(used)));
        assert_eq!(block::used(&before), used);
        let left = ROOM - used;
        // One that just fits, those beside it, and the shortest and longest.
        let near = left.saturating_sub(5)..=left + 3;
        let lengths = near.chain([1, 2, 127, 128, 254, 255]);
        for length in lengths.filter(|length| (1..=255).contains(length)) {
            for direction in [0, 1] {
                let facts = compare(&before, Asked::Add(direction, &message[..length]));
                assert_eq!((facts.code(), facts.is_added()), (0, length + 2 <= left));
            }
        }
    }
}

/// Every length, and every room from none to a little more than the longest needs.
#[test]
fn each_length() {
    let message = [0xFF; 255];
    for length in 1..=255 {
        for left in 0..=260 {
            let before = block::block(0, &octets(&filling(ROOM - left)));
            let facts = compare(&before, Asked::Add(1, &message[..length]));
            assert_eq!((facts.code(), facts.is_added()), (0, length + 2 <= left));
        }
    }
}
