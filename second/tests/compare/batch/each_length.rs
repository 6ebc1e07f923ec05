//! Every octet as a record's length, in slices of every length around it.

use super::compare;
use crate::notation::octets;
use crate::tables;

/// The longest slice: one octet more than the longest record.
const LONGEST: usize = 257;

/// As the first record: each length of the slice.
#[test]
fn of_the_first() {
    for length in 0..=255 {
        for behind in 0..LONGEST {
            check(&[], 0, length, behind);
        }
    }
    check_slice(&[], Some(0));
}

/// As the second, where a fault refuses the first too: each length near it.
#[test]
fn of_the_second() {
    let before = octets("039B3A00");
    for length in 0..=255u8 {
        let behind = usize::from(length);
        for behind in [
            0,
            1,
            behind.saturating_sub(1),
            behind,
            behind + 1,
            behind + 2,
            256,
        ] {
            check(&before, 1, length, behind);
        }
    }
}

/// A length octet and so many behind it, these whole records before it. What it leaves
/// over is a record too, or a zero record if it is one octet.
fn check(before: &[u8], count: usize, length: u8, behind: usize) {
    let mut slice = [before, &[length], &vec![0x00; behind]].concat();
    let slots = match behind.checked_sub(usize::from(length)) {
        _ if length == 0 => None,
        None => None,
        Some(0) => Some(count + 1),
        Some(left) => {
            let at = slice.len() - left;
            slice[at] = left as u8 - 1;
            (left > 1).then_some(count + 2)
        }
    };
    check_slice(&slice, slots);
}

/// The slice has so many whole records, or is refused.
fn check_slice(slice: &[u8], slots: Option<usize>) {
    let lent: Vec<u8> = (0..45).map(|place| 5 * place ^ 0xA5).collect();
    let facts = compare(&tables::named("fresh"), slice, &lent);
    let code = if slots.is_some() { 0 } else { 30 };
    assert_eq!(facts.batched.code, code);
    assert_eq!(facts.batched.slots, slots.unwrap_or(0));
}
