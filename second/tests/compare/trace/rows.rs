//! Rows of records by chance, written with the two calls as the header says: "What the
//! two build is what the writer builds."

use super::{compare, Asked};
use crate::blocks;
use crate::chance::Chance;
use second::trace::block::{BLOCK, RECORD};
use second::trace::file;
use second::trace::record::Record;

const ROWS: u64 = 2_500;
const LONGEST: usize = 60;

/// "Keep one block, add each message as it comes or goes, and write the block where it
/// is full." "Begin a block only where there is none yet, or where a record doesn't
/// fit." The code of the first record that is refused ends it.
pub fn written(records: &[Record]) -> file::Written {
    let mut file = Vec::new();
    let mut kept: Option<Vec<u8>> = None;
    let mut number = 0;
    let mut code = 0;
    for record in records {
        let asked = Asked::Add(record.direction, &record.message);
        let block = kept.take().unwrap_or_else(|| begun(number));
        let facts = compare(&block, asked);
        if facts.code() != 0 {
            code = facts.code();
            // A block begun for the bad record alone is none.
            kept = (block != begun(number)).then_some(block);
            break;
        }
        if facts.is_added() {
            kept = Some(facts.block);
            continue;
        }
        file.extend(block);
        number += 1;
        let facts = compare(&begun(number), asked);
        assert!(facts.is_added(), "every record fits an empty block");
        kept = Some(facts.block);
    }
    file.extend(kept.unwrap_or_default());
    file::Written { code, file }
}

fn begun(number: u32) -> Vec<u8> {
    let facts = compare(&[0xEE; BLOCK], Asked::Begin(number));
    assert!(facts.is_added(), "it is begun");
    facts.block
}

fn row(c: &mut Chance) -> Vec<Record> {
    let count = c.below(LONGEST + 1);
    let mut row: Vec<Record> = (0..count).map(|_| blocks::record(c)).collect();
    // Some just fill the block that they are in.
    if c.one_in(3) {
        row = (0..c.range(1, 6))
            .flat_map(|_| blocks::records(c))
            .collect();
    }
    row
}

#[test]
fn by_chance() {
    let mut blocks = 0;
    for time in 0..ROWS {
        let mut c = Chance::new(14_000_000 + time);
        let row = row(&mut c);
        let written = written(&row);
        assert!(written == file::write(&row), "not what the writer writes");
        let read = file::read(&written.file);
        assert_eq!(read.code, 0);
        assert!(read.records == row, "other records");
        blocks += read.blocks;
    }
    assert!(blocks > 2 * ROWS, "rows of several blocks");
}

/// One record of the row is bad: those before it are written.
#[test]
fn with_a_bad_record() {
    for time in 0..ROWS {
        let mut c = Chance::new(15_000_000 + time);
        let mut row = row(&mut c);
        let place = c.below(row.len() + 1);
        let mut bad = blocks::record(&mut c);
        match c.below(3) {
            0 => bad.direction = c.range(2, 255) as u8,
            1 => bad.message.clear(),
            _ => bad.message.resize(c.range(256, 300), 0x41),
        }
        row.insert(place, bad);
        let written = written(&row);
        assert!(written == file::write(&row), "not what the writer writes");
        assert_eq!(written.code, RECORD);
        assert!(written.file == file::write(&row[..place]).file);
    }
}
