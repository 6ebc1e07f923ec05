//! Salvage: "copies every block without a fault from 32 to 35, unaltered but for number
//! and sum, and lists each block it dropped or renumbered with the old number and the
//! first fault found".

use super::block::{self, BLOCK, NUMBER, SHORT};

/// What salvage gives.
#[derive(Clone, Debug, PartialEq, Eq)]
pub struct Salvaged {
    pub file: Vec<u8>,
    /// "in the order of the input", "each block once"
    pub list: Vec<Listed>,
}

/// A block that was dropped or renumbered.
#[derive(Clone, Copy, Debug, PartialEq, Eq)]
pub struct Listed {
    /// Its old number; "A short last block is listed by its place", in the input.
    pub number: u64,
    /// The first fault found, 32 to 36.
    pub fault: u8,
}

pub fn salvage(file: &[u8]) -> Salvaged {
    let mut kept: Vec<Vec<u8>> = Vec::new();
    let mut list = Vec::new();
    for (place, block) in (0..).zip(file.chunks(BLOCK)) {
        // "for salvage its place in the output": the number of blocks kept so far.
        let place_in_output = kept.len() as u64;
        let fault = block::read_at(block, place_in_output).err();
        if let Some(fault) = fault {
            let number = match fault {
                SHORT => place,
                _ => u64::from(block::number(block)),
            };
            list.push(Listed { number, fault });
        }
        // "36 renumbers and drops nothing"
        match fault {
            None => kept.push(block.to_vec()),
            Some(NUMBER) => {
                let number = block::number_at(place_in_output);
                kept.push(block::renumbered(block, number));
            }
            Some(_) => (),
        }
    }
    Salvaged {
        file: kept.concat(),
        list,
    }
}
