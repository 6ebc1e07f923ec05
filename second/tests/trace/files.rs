//! Files by chance, whole and broken.

use crate::blocks::{self, mend, CHANGES};
use crate::chance::Chance;
use second::trace::block::BLOCK;

const MOST_BLOCKS: usize = 8;

/// A whole file: blocks in order, full, half full or empty.
pub fn whole(c: &mut Chance) -> Vec<Vec<u8>> {
    let count = c.below(MOST_BLOCKS + 1);
    (0..count as u32)
        .map(|number| blocks::sound(c, number))
        .collect()
}

/// The file, broken in one way or a few.
pub fn broken(c: &mut Chance) -> Vec<u8> {
    let mut blocks = whole(c);
    for _ in 0..c.pick(&[1, 1, 2, 3, 5]) {
        match c.below(3) {
            0 => move_about(c, &mut blocks),
            _ => change(c, &mut blocks),
        }
    }
    let mut file = blocks.concat();
    match c.below(4) {
        0 => cut(c, &mut file),
        _ if c.one_in(8) => shift(c, &mut file),
        _ => (),
    }
    file
}

/// The octets of one block.
fn change(c: &mut Chance, blocks: &mut [Vec<u8>]) {
    if blocks.is_empty() {
        return;
    }
    let place = c.below(blocks.len());
    let (_, change) = c.pick(&CHANGES);
    change(c, &mut blocks[place]);
}

/// Blocks dropped, doubled, swapped, renumbered, or put in.
fn move_about(c: &mut Chance, blocks: &mut Vec<Vec<u8>>) {
    let place = c.below(blocks.len() + 1);
    if c.flip() || place == blocks.len() {
        let number = blocks::number(c);
        let other = match c.below(5) {
            0 => vec![0x00; BLOCK],
            1 => vec![0xFF; BLOCK],
            2 => c.octets(BLOCK),
            _ => blocks::sound(c, number),
        };
        blocks.insert(place, other);
        return;
    }
    match c.below(4) {
        0 => drop(blocks.remove(place)),
        1 => blocks.insert(place, blocks[place].clone()),
        2 => {
            let other = c.below(blocks.len());
            blocks.swap(place, other);
        }
        _ => {
            let number = blocks::number(c).to_be_bytes();
            blocks[place][..4].copy_from_slice(&number);
            mend(&mut blocks[place]);
        }
    }
}

/// Cut short, or with octets behind the last block.
fn cut(c: &mut Chance, file: &mut Vec<u8>) {
    match c.flip() {
        true => {
            let length = c.range(1, BLOCK - 1);
            file.extend(c.octets(length));
        }
        false => file.truncate(c.below(file.len() + 1)),
    }
}

/// An octet too much or too few: no block behind it is where it should be.
fn shift(c: &mut Chance, file: &mut Vec<u8>) {
    let place = c.below(file.len() + 1);
    match c.flip() || place == file.len() {
        true => file.insert(place, c.octet()),
        false => drop(file.remove(place)),
    }
}
