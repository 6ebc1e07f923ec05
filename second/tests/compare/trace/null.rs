//! "NULL with length 0": for the block, the message, both.

use second::ffi::{trace_add_with_null, trace_begin_of_null, Traced};
use second::trace::block::block;

const fn refused(code: u8) -> Traced {
    Traced { code, added: 0 }
}

#[test]
fn block_of_null() {
    for number in [0, 1, u32::MAX] {
        assert_eq!(trace_begin_of_null(number), refused(32));
    }
    for direction in 0..=255 {
        for message in [&[][..], &[0x41], &[0x41; 600]] {
            let traced = trace_add_with_null(&mut [], direction, message);
            assert_eq!(traced, refused(32));
        }
    }
}

/// The block's own fault, then 35.
#[test]
fn message_of_null() {
    let sound = block(9, &[0x01, 0x01, 0x41]);
    let mut wrong_sum = sound.clone();
    wrong_sum[511] ^= 1;
    for (before, code) in [(sound, 35), (wrong_sum, 33), (vec![0xFF; 511], 32)] {
        for direction in 0..=255 {
            let mut after = before.clone();
            let traced = trace_add_with_null(&mut after, direction, &[]);
            assert_eq!(traced, refused(code));
            assert_eq!(after, before);
        }
    }
}
