//! Records and blocks of a trace by chance, and the ways in which a block is changed.

use crate::chance::Chance;
use second::trace::block::{self, RECORDS_AT, ROOM, SUM_AT, USED_AT};
use second::trace::record::{self, Record};

/// A sound record: short, long, or at an edge.
pub fn record(c: &mut Chance) -> Record {
    let length = match c.below(4) {
        0 => c.range(1, 255),
        1 => c.pick(&[1, 2, 127, 128, 245, 246, 247, 254, 255]),
        _ => c.range(1, 12),
    };
    let message = match c.below(5) {
        0 => vec![0x00; length],
        1 => vec![0xFF; length],
        _ => c.octets(length),
    };
    Record {
        direction: c.below(2) as u8,
        message,
    }
}

/// Records for one block: none, some, or so many that it is full or nearly.
pub fn records(c: &mut Chance) -> Vec<Record> {
    let mut left = match c.below(5) {
        0 => 0,
        1 => c.below(40),
        2 => c.below(ROOM),
        _ => ROOM,
    };
    let is_exact = c.flip();
    let mut records = Vec::new();
    while left > 2 {
        let mut record = record(c);
        if record.octets().len() > left {
            if !is_exact {
                break;
            }
            record.message.truncate(left - 2);
        }
        left -= record.octets().len();
        records.push(record);
    }
    records
}

/// A block without a fault from 32 to 35.
pub fn sound(c: &mut Chance, number: u32) -> Vec<u8> {
    block::block(number, &record::octets(&records(c)))
}

/// A number that a block may have: small, at an edge, or any.
pub fn number(c: &mut Chance) -> u32 {
    match c.below(3) {
        0 => c.below(6) as u32,
        1 => c.pick(&[
            255,
            256,
            65_535,
            65_536,
            16_777_216,
            2_147_483_647,
            2_147_483_648,
            4_294_967_295,
        ]),
        _ => c.next() as u32,
    }
}

/// A right sum.
pub fn mend(block: &mut [u8]) {
    let sum = block::sum(block);
    block[SUM_AT..].copy_from_slice(&sum.to_be_bytes());
}

pub fn set_used(block: &mut [u8], used: usize) {
    block[USED_AT..RECORDS_AT].copy_from_slice(&(used as u16).to_be_bytes());
}

/// How a block is changed.
pub type Change = (&'static str, fn(&mut Chance, &mut [u8]));

pub const CHANGES: [Change; 14] = [
    ("a bit", bit),
    ("an octet", octet),
    ("the sum", sum),
    ("octets swapped", swapped),
    ("a bit, mended", |c, block| mended(c, block, bit)),
    ("an octet, mended", |c, block| mended(c, block, octet)),
    ("the use count", |c, block| mended(c, block, used)),
    ("the rest", |c, block| mended(c, block, rest)),
    ("a direction", |c, block| mended(c, block, direction)),
    ("a length", |c, block| mended(c, block, length)),
    ("zeros", |_, block| block.fill(0x00)),
    ("ff", |_, block| block.fill(0xFF)),
    ("noise", noise),
    ("noise, mended", |c, block| mended(c, block, noise)),
];

fn mended(c: &mut Chance, block: &mut [u8], change: fn(&mut Chance, &mut [u8])) {
    change(c, block);
    mend(block);
}

/// A place: in the head, the sum, the octets used or the rest.
fn place(c: &mut Chance, block: &[u8]) -> usize {
    let end = (RECORDS_AT + block::used(block)).min(SUM_AT);
    match c.below(8) {
        0 => c.below(RECORDS_AT),
        1 => c.range(SUM_AT, block.len() - 1),
        2..=4 => c.range(RECORDS_AT, end.min(SUM_AT - 1)),
        _ => c.below(block.len()),
    }
}

fn bit(c: &mut Chance, block: &mut [u8]) {
    block[place(c, block)] ^= 1 << c.below(8);
}

fn octet(c: &mut Chance, block: &mut [u8]) {
    block[place(c, block)] = c.octet();
}

/// Near the right one, its octets changed about, or that of another kind of sum.
fn sum(c: &mut Chance, block: &mut [u8]) {
    let right = block::sum(block);
    let words = block[..SUM_AT].chunks(2);
    let words = words.map(|pair| u16::from_be_bytes([pair[0], pair[1]]));
    let wrong = match c.below(7) {
        0 => right.wrapping_add(1),
        1 => right.wrapping_sub(1),
        2 => right ^ 0x0100,
        3 => right.swap_bytes(),
        4 => words.fold(0, u16::wrapping_add),
        5 => !right,
        _ => c.next() as u16,
    };
    block[SUM_AT..].copy_from_slice(&wrong.to_be_bytes());
}

/// The sum stays right, unless it is one of its own octets.
fn swapped(c: &mut Chance, block: &mut [u8]) {
    let (one, other) = (place(c, block), place(c, block));
    block.swap(one, other);
}

fn used(c: &mut Chance, block: &mut [u8]) {
    let right = block::used(block);
    let wrong = match c.below(5) {
        0 => right + c.range(1, 3),
        1 => right.saturating_sub(c.range(1, 3)),
        2 => c.below(ROOM + 1),
        3 => c.pick(&[0, 503, 504, 505, 506, 510, 512, 0x0100, 0x8000, 0xFFFF]),
        _ => c.below(65_536),
    };
    set_used(block, wrong);
}

fn rest(c: &mut Chance, block: &mut [u8]) {
    let first = (RECORDS_AT + block::used(block)).min(SUM_AT - 1);
    let place = match c.below(3) {
        0 => first,
        1 => SUM_AT - 1,
        _ => c.range(first, SUM_AT - 1),
    };
    block[place] = c.range(1, 255) as u8;
}

/// Where a record starts; the records' place where there is none.
fn start(c: &mut Chance, block: &[u8]) -> usize {
    let mut starts = vec![RECORDS_AT];
    for record in block::read(block).unwrap_or_default() {
        starts.push(starts[starts.len() - 1] + record.octets().len());
    }
    let records = starts.len().max(2) - 1;
    starts[c.below(records)]
}

fn direction(c: &mut Chance, block: &mut [u8]) {
    let start = start(c, block);
    block[start] = match c.below(3) {
        0 => block[start] ^ 1,
        1 => 2,
        _ => c.range(2, 255) as u8,
    };
}

fn length(c: &mut Chance, block: &mut [u8]) {
    let place = start(c, block) + 1;
    block[place] = match c.below(5) {
        0 => 0,
        1 => block[place].wrapping_add(1),
        2 => block[place].wrapping_sub(1),
        3 => 255,
        _ => c.octet(),
    };
}

fn noise(c: &mut Chance, block: &mut [u8]) {
    let octets = c.octets(block.len());
    block.copy_from_slice(&octets);
}
