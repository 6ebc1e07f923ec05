//! Bad records, by where they stand and what they lack.

use crate::met::Met;

/// What is bad, and the numbers of it that must occur: a zero record as the first (1),
/// between others (2), as the last (3); a record cut by one octet (1), by all but its
/// length (2), by some (3).
pub const BAD: [(&str, &[u8]); 2] = [("zero record", &[1, 2, 3]), ("cut record", &[1, 2, 3])];

/// How many whole records stand in a slice, and the first bad one behind them, told as
/// above.
pub fn whole(slice: &[u8]) -> (usize, Option<Met>) {
    let (mut at, mut count) = (0, 0);
    while at < slice.len() {
        let (length, left) = (usize::from(slice[at]), slice.len() - at - 1);
        let bad = match (length, left) {
            (0, _) if count == 0 => Some(("zero record", 1)),
            (0, 0) => Some(("zero record", 3)),
            (0, _) => Some(("zero record", 2)),
            _ if left >= length => None,
            (_, 0) => Some(("cut record", 2)),
            _ if left + 1 == length => Some(("cut record", 1)),
            _ => Some(("cut record", 3)),
        };
        if bad.is_some() {
            return (count, bad);
        }
        at += 1 + length;
        count += 1;
    }
    (count, None)
}
