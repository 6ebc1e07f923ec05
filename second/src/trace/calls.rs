//! The two calls from C, on a block that is lent.

use super::block::{self, BLOCK, RECORD, ROOM, SHORT};
use super::record::{self, Record};

/// What a call gives.
#[derive(Clone, Debug, PartialEq, Eq)]
pub struct Traced {
    /// 0, or the refusal, 32 to 35.
    pub code: u8,
    /// False with code 0: "it doesn't fit, begin the next block".
    pub added: bool,
    /// The block after.
    pub block: Vec<u8>,
}

/// "An empty block of this number." "Any length but 512 is 32, in both." "begin answers
/// with added true."
pub fn begin(lent: &[u8], number: u32) -> Traced {
    match lent.len() {
        BLOCK => added(block::block(number, &[])),
        _ => stays(SHORT, lent),
    }
}

/// "finds the block's own fault first (32 to 35; its number is free), then a bad record
/// (35), then whether it fits; refused, or where it doesn't fit, it leaves the block as
/// lent"
pub fn add(lent: &[u8], direction: u8, message: &[u8]) -> Traced {
    let mut records = match block::read(lent) {
        Ok(records) => records,
        Err(fault) => return stays(fault, lent),
    };
    let record = Record {
        direction,
        message: message.to_vec(),
    };
    if !record.is_sound() {
        return stays(RECORD, lent);
    }
    records.push(record);
    let octets = record::octets(&records);
    match octets.len() {
        0..=ROOM => added(block::block(block::number(lent), &octets)),
        _ => stays(0, lent),
    }
}

fn added(block: Vec<u8>) -> Traced {
    Traced {
        code: 0,
        added: true,
        block,
    }
}

fn stays(code: u8, lent: &[u8]) -> Traced {
    Traced {
        code,
        added: false,
        block: lent.to_vec(),
    }
}
