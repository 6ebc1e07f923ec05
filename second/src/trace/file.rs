//! A whole file: written of a row of records, and read.

use super::block::{self, BLOCK, RECORD, ROOM};
use super::record::Record;

/// What the writer gives.
#[derive(Clone, Debug, PartialEq, Eq)]
pub struct Written {
    /// 0, or 35: "a bad record is its 35".
    pub code: u8,
    pub file: Vec<u8>,
}

/// "The writer opens a block only when a record doesn't fit", so there is none where no
/// record is; "35 ends the writing. The records before the bad one are written, as a
/// whole file".
pub fn write(records: &[Record]) -> Written {
    let mut blocks: Vec<Vec<u8>> = Vec::new();
    for record in records.iter().take_while(|record| record.is_sound()) {
        let octets = record.octets();
        match blocks.last_mut() {
            Some(last) if last.len() + octets.len() <= ROOM => last.extend(octets),
            _ => blocks.push(octets),
        }
    }
    let numbered = (0..).zip(&blocks);
    let file = numbered.flat_map(|(place, records)| block::block(block::number_at(place), records));
    Written {
        code: match records.iter().all(Record::is_sound) {
            true => 0,
            false => RECORD,
        },
        file: file.collect(),
    }
}

/// What the reader gives.
#[derive(Clone, Debug, PartialEq, Eq)]
pub struct Read {
    /// 0, or the fault of the first block that has one, 32 to 36.
    pub code: u8,
    /// How many blocks were read: where one is refused, its place.
    pub blocks: u64,
    /// The records of the blocks before it.
    pub records: Vec<Record>,
}

/// "Blocks from the first on, and in each block 32 to 36"; "No block behind it is read."
pub fn read(file: &[u8]) -> Read {
    let mut read = Read {
        code: 0,
        blocks: 0,
        records: Vec::new(),
    };
    for block in file.chunks(BLOCK) {
        match block::read_at(block, read.blocks) {
            Ok(records) => read.records.extend(records),
            Err(fault) => {
                read.code = fault;
                return read;
            }
        }
        read.blocks += 1;
    }
    read
}
