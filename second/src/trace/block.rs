//! A block: "block number (four octets, from 0), octets used (two, 0 to 504), 504 octets
//! for records, then the sum of the first 510 octets modulo 65,536 (two), all high
//! first".

use super::record::{self, Record};

pub const BLOCK: usize = 512;
/// The octets for records.
pub const ROOM: usize = 504;
/// Where the use count, the records and the sum stand.
pub const USED_AT: usize = 4;
pub const RECORDS_AT: usize = 6;
pub const SUM_AT: usize = 510;

/// "32 short block, 33 sum, 34 use count, 35 record or rest, 36 number"
pub const SHORT: u8 = 32;
pub const SUM: u8 = 33;
pub const USED: u8 = 34;
pub const RECORD: u8 = 35;
pub const NUMBER: u8 = 36;

/// The block of this number with these octets in the records' place, all of them used:
/// "the rest is zero".
pub fn block(number: u32, records: &[u8]) -> Vec<u8> {
    assert!(records.len() <= ROOM, "no block holds that");
    let used = records.len() as u16;
    let mut octets = [&number.to_be_bytes()[..], &used.to_be_bytes(), records].concat();
    octets.resize(SUM_AT, 0);
    summed(&octets)
}

/// The first 510 octets with their sum behind.
fn summed(octets: &[u8]) -> Vec<u8> {
    [octets, &sum(octets).to_be_bytes()].concat()
}

/// "Octets, not words; number, use count and rest included."
pub fn sum(octets: &[u8]) -> u16 {
    let sum: u32 = octets[..SUM_AT].iter().map(|octet| u32::from(*octet)).sum();
    (sum % 65_536) as u16
}

/// The block's own number.
pub fn number(block: &[u8]) -> u32 {
    u32::from_be_bytes([block[0], block[1], block[2], block[3]])
}

/// What the use count says.
pub fn used(block: &[u8]) -> usize {
    two(block, USED_AT)
}

/// Two octets, high first.
fn two(block: &[u8], at: usize) -> usize {
    usize::from(u16::from_be_bytes([block[at], block[at + 1]]))
}

/// The same block under another number: "unaltered but for number and sum".
pub fn renumbered(block: &[u8], number: u32) -> Vec<u8> {
    summed(&[&number.to_be_bytes(), &block[USED_AT..SUM_AT]].concat())
}

/// The block's records, or its first fault from 32 to 35; its number is free.
pub fn read(block: &[u8]) -> Result<Vec<Record>, u8> {
    if block.len() != BLOCK {
        return Err(SHORT);
    }
    if two(block, SUM_AT) != usize::from(sum(block)) {
        return Err(SUM);
    }
    if used(block) > ROOM {
        return Err(USED);
    }
    let (records, rest) = block[RECORDS_AT..SUM_AT].split_at(used(block));
    match record::records(records) {
        Some(records) if rest.iter().all(|octet| *octet == 0) => Ok(records),
        _ => Err(RECORD),
    }
}

/// The same for the block at this place of a file: "36 number not the block's place". A
/// place of 4,294,967,296 or over is no block's number.
pub fn read_at(block: &[u8], place: u64) -> Result<Vec<Record>, u8> {
    let records = read(block)?;
    match u64::from(number(block)) == place {
        true => Ok(records),
        false => Err(NUMBER),
    }
}

/// The number written at a place: "the place modulo 4,294,967,296".
pub fn number_at(place: u64) -> u32 {
    (place % 4_294_967_296) as u32
}
