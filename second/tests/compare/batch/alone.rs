//! What the archive's batch owes to its own calls, whatever these give.

use super::{on_archive, Facts};
use crate::records::records;
use second::batch::SLOT;
use second::ffi;

/// "Verdicts, replies and final table equal those of feeding the messages one by one":
/// each with a reply buffer that this lends, of 12 octets or more.
pub fn check_one_by_one(
    image: &[u8],
    messages: &[Vec<u8>],
    facts: &Facts,
    mut buffer: impl FnMut() -> Vec<u8>,
) {
    assert_eq!(facts.batched.slots, messages.len(), "a slot for each");
    let mut table = image.to_vec();
    for (message, slot) in messages.iter().zip(facts.slots()) {
        let lent = buffer();
        let mut reply = lent.clone();
        let received = ffi::receive(&mut table, message, &mut reply);
        let written = received.written;
        assert_eq!(slot[0], received.code, "the verdict");
        assert_eq!(usize::from(slot[1]), written, "the reply's length");
        assert_eq!(slot[2..2 + written], reply[..written], "the reply");
        assert_eq!(reply[written..], lent[written..], "what is behind stays");
    }
    assert_eq!(table, facts.table, "the final table");
}

/// Two batches, one behind the other, are the one of both, wherever it is parted.
pub fn check_parted(image: &[u8], messages: &[Vec<u8>], lent: &[u8], facts: &Facts) {
    for parted in 0..=messages.len() {
        let (first, second) = messages.split_at(parted);
        let (before, behind) = lent.split_at(SLOT * parted);
        let first = on_archive(image, &records(first), before);
        let second = on_archive(&first.table, &records(second), behind);
        let slots = [first.batched.slots, second.batched.slots];
        assert_eq!(slots, [parted, messages.len() - parted]);
        assert_eq!([first.output, second.output].concat(), facts.output);
        assert_eq!(second.table, facts.table, "the final table");
    }
}
