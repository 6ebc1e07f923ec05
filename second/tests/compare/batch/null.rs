//! "NULL is allowed where the length is 0": for the table, the records, the output.

use crate::notation::octets;
use crate::tables;
use second::ffi::{batch_with_null, Batched};

#[test]
fn null() {
    let records = octets("039B3A00");
    for (table, records, room, code) in [
        (vec![], &[][..], 0, 28),
        (vec![], &records, 14, 28),
        (tables::named("w1"), &[], 0, 0),
        (tables::named("w1"), &[], 14, 0),
        (tables::named("w1"), &records, 0, 31),
        (tables::named("w1"), &records[..3], 0, 30),
    ] {
        let (mut after, mut output) = (table.clone(), vec![0xEE; room]);
        let batched = batch_with_null(&mut after, records, &mut output);
        assert_eq!(batched, Batched { code, slots: 0 });
        assert_eq!((after, output), (table, vec![0xEE; room]));
    }
}
