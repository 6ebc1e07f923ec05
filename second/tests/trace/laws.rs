//! Laws of whole files: salvage, and the writer behind the reader.

use crate::blocks;
use crate::chance::Chance;
use crate::files;
use crate::program::{READER, SALVAGE, WRITER};
use second::trace::block::BLOCK;
use second::trace::file;
use second::trace::record::Record;

const FILES: u64 = 200;

/// "A whole file comes out identical with an empty list."
fn stays_whole(file: &[u8]) {
    let salvaged = SALVAGE.compare(file);
    assert!(salvaged.output == file, "not identical");
    assert!(salvaged.error.is_empty(), "something is listed");
}

/// "What it prints the writer takes, and gives a file with the same records." Written
/// once, the file is the writer's own: written once more it is the same.
fn there_and_back(file: &[u8]) {
    let lines = READER.compare(file);
    let written = WRITER.compare(&lines.output);
    assert!(written.error.is_empty(), "its lines are refused");
    let again = READER.compare(&written.output);
    assert!(again.output == lines.output, "other records");
    assert!(written.output.len() <= file.len(), "more blocks");
}

#[test]
fn whole_files() {
    let mut octets = 0;
    for time in 0..FILES {
        let mut c = Chance::new(24_000_000 + time);
        let file = files::whole(&mut c).concat();
        stays_whole(&file);
        there_and_back(&file);
        octets += file.len();
    }
    assert!(
        octets > 2 * BLOCK * FILES as usize,
        "files of several blocks"
    );
}

/// Files as the writer makes them.
#[test]
fn written_files() {
    for time in 0..FILES {
        let mut c = Chance::new(25_000_000 + time);
        let count = c.below(40);
        let records: Vec<Record> = (0..count).map(|_| blocks::record(&mut c)).collect();
        let file = file::write(&records).file;
        stays_whole(&file);
        let lines = READER.compare(&file);
        assert!(WRITER.compare(&lines.output).output == file, "another file");
    }
}
