//! Every short message, from five tables.

use crate::both::compare_message;
use crate::extent::takes_first;
use crate::tables;

const TABLES: [&str; 5] = ["fresh", "w1", "own59", "eight", "crowded"];

#[test]
fn of_up_to_two_octets() {
    for table in TABLES.map(tables::named) {
        compare_message(&table, &[], 300);
        for first in 0..=255 {
            compare_message(&table, &[first], 12);
            for second in 0..=255 {
                compare_message(&table, &[first, second], 20);
            }
        }
    }
}

/// All 16,777,216, in two halves for two cores.
#[test]
fn of_three_octets() {
    std::thread::scope(|scope| {
        let lower = scope.spawn(|| three_octets(0..=127));
        three_octets(128..=255);
        lower.join().expect("the lower half");
    });
}

fn three_octets(firsts: std::ops::RangeInclusive<u8>) {
    for table in TABLES.map(tables::named) {
        for first in firsts.clone().filter(|f| takes_first(*f)) {
            for second in 0..=255 {
                for third in 0..=255 {
                    compare_message(&table, &[first, second, third], 12);
                }
            }
        }
    }
}
