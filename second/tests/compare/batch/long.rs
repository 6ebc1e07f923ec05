//! Long rows: thousands of records, and outputs past 65,536 octets.

use super::alone::check_one_by_one;
use super::compare;
use crate::chance::Chance;
use crate::records::{conversation, records};
use crate::tables;
use second::batch::SLOT;

#[test]
fn conversations() {
    for (time, count) in [1_000, 2_000, 5_000].into_iter().enumerate() {
        let mut c = Chance::new(13_000_000 + time as u64);
        let table = tables::random(&mut c);
        let messages = conversation(&mut c, &table, count);
        let slice = records(&messages);
        let lent = c.octets(SLOT * count + 20);
        let facts = compare(&table, &slice, &lent);
        assert_eq!((facts.batched.code, facts.batched.slots), (0, count));
        check_one_by_one(&table, &messages, &facts, || vec![0xFF; 12]);

        // The last one cut by one octet, a zero record behind it, no room for it.
        let cut = &slice[..slice.len() - 1];
        let zero = [&slice[..], &[0]].concat();
        let short = &lent[..SLOT * count - 1];
        for (slice, lent, code) in [
            (cut, &lent[..], 30),
            (&zero, &lent, 30),
            (&slice, short, 31),
        ] {
            assert_eq!(compare(&table, slice, lent).batched.code, code);
        }
    }
}

/// Records of one octet each: about 256 of them, 65,536, and so many that their slots
/// have about 65,536 octets.
#[test]
fn counts() {
    let table = tables::named("fresh");
    for count in [255, 256, 257, 4_681, 4_682, 65_536] {
        let slice = [0x01, 0x8B].repeat(count);
        let lent = vec![0xEE; SLOT * count + 1];
        let facts = compare(&table, &slice, &lent);
        assert_eq!((facts.batched.code, facts.batched.slots), (0, count));
        let short = &lent[..SLOT * count - 1];
        assert_eq!(compare(&table, &slice, short).batched.code, 31);
    }
}

/// Records of 255 octets, other protocols and unknown types.
#[test]
fn longest_records() {
    let table = tables::named("crowded");
    for count in [1, 16, 257, 300] {
        let record = |first: usize| [vec![0xFF, first as u8], vec![0x3C; 254]].concat();
        let slice: Vec<u8> = (0..count).flat_map(record).collect();
        let facts = compare(&table, &slice, &vec![0xEE; SLOT * count]);
        assert_eq!((facts.batched.code, facts.batched.slots), (0, count));
    }
}
