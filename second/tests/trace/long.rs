//! Files of more blocks than two octets count.

use crate::program::{READER, SALVAGE, WRITER};
use second::trace::block::{block, BLOCK};

const BLOCKS: u32 = 65_540;

/// One short record in each block, so that its number is seen in order.
fn file() -> Vec<u8> {
    let blocks = (0..BLOCKS).map(|number| block(number, &[0x00, 0x01, number as u8]));
    blocks.collect::<Vec<Vec<u8>>>().concat()
}

#[test]
fn read_and_salvaged() {
    let mut file = file();
    let read = READER.compare(&file);
    assert_eq!(read.output.len(), b"received 41\n".len() * BLOCKS as usize);
    assert!(SALVAGE.compare(&file).error.is_empty());
    // Without its first block all others are renumbered.
    file.drain(..BLOCK);
    let salvaged = SALVAGE.compare(&file);
    let list = String::from_utf8(salvaged.error).expect("ASCII");
    assert_eq!(list.lines().last(), Some("number 65539 renumbered 36"));
    // A number that agrees in its low octets.
    let last = 65_536 * BLOCK;
    let mut file = salvaged.output;
    file[last..last + BLOCK].copy_from_slice(&block(0, &[]));
    let read = READER.compare(&file);
    assert!(read.output.ends_with(b"block 65536 refused 36\n"));
}

/// One record in each block.
#[test]
fn written() {
    let line = format!("received {}\n", "41".repeat(255));
    let written = WRITER.compare(line.repeat(BLOCKS as usize).as_bytes());
    assert!(written.output.len() == BLOCKS as usize * BLOCK);
}
