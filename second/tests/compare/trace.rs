//! The two calls of a trace on the archive and on the second program, and the
//! comparison.

mod begin;
mod cases;
mod directions;
mod each_place;
mod fits;
mod lengths;
mod many;
mod notation;
mod null;
mod rows;
mod use_counts;

use crate::lent::Lent;
use crate::notation::hex;
use crate::report::lines;
use second::ffi;
use second::trace::block::{self, RECORDS_AT, SUM_AT};
use second::trace::calls;
use second::trace::record::Record;

/// Which of the two, and all that it is given but the block.
#[derive(Clone, Copy, Debug)]
enum Asked<'a> {
    Begin(u32),
    /// A direction and a message.
    Add(u8, &'a [u8]),
}

/// All that a call gives: what it returns, and the whole block.
#[derive(Clone, Debug, PartialEq, Eq)]
struct Facts {
    traced: ffi::Traced,
    block: Vec<u8>,
}

/// What guards a slice that is lent.
const GUARD: u8 = 0xD3;

impl Facts {
    fn code(&self) -> u8 {
        self.traced.code
    }

    fn is_added(&self) -> bool {
        self.traced.added == 1
    }
}

/// The call on both; they agree, and on what the paper says of every outcome.
fn compare(block: &[u8], asked: Asked) -> Facts {
    let (archive, second) = (on_archive(block, asked), on_second(block, asked));
    if archive != second {
        report(block, asked, &archive, &second);
        panic!("they differ");
    }
    if !is_sound(block, asked, &archive) {
        report(block, asked, &archive, &second);
        panic!("no such block");
    }
    archive
}

fn on_archive(block: &[u8], asked: Asked) -> Facts {
    let mut block = Lent::new(block, GUARD);
    let traced = match asked {
        Asked::Begin(number) => ffi::trace_begin(block.slice(), number),
        Asked::Add(direction, message) => ffi::trace_add(block.slice(), direction, message),
    };
    Facts {
        traced,
        block: block.back(),
    }
}

fn on_second(block: &[u8], asked: Asked) -> Facts {
    let traced = match asked {
        Asked::Begin(number) => calls::begin(block, number),
        Asked::Add(direction, message) => calls::add(block, direction, message),
    };
    Facts {
        traced: (&traced).into(),
        block: traced.block,
    }
}

/// Where nothing was added the block stays; else it is the block with the record behind
/// those that it had, or with none.
fn is_sound(before: &[u8], asked: Asked, facts: &Facts) -> bool {
    if !facts.is_added() {
        let is_code = [0, 32, 33, 34, 35].contains(&facts.code());
        return is_code && facts.traced.added == 0 && facts.block == before;
    }
    let after = block::read(&facts.block);
    let is_right = match asked {
        Asked::Begin(number) => block::number(&facts.block) == number && after == Ok(Vec::new()),
        Asked::Add(direction, message) => {
            let message = message.to_vec();
            let mut wanted = block::read(before).unwrap_or_default();
            wanted.push(Record { direction, message });
            let end = RECORDS_AT + block::used(before);
            let rest = &facts.block[RECORDS_AT + block::used(&facts.block)..SUM_AT];
            facts.block[..4] == before[..4]
                && facts.block[RECORDS_AT..end] == before[RECORDS_AT..end]
                && rest.iter().all(|octet| *octet == 0)
                && after == Ok(wanted)
        }
    };
    facts.code() == 0 && is_right
}

/// The exact input and both outcomes, in lines of at most forty characters.
fn report(block: &[u8], asked: Asked, archive: &Facts, second: &Facts) {
    println!("| block of {}", block.len());
    lines("block", &hex(block));
    match asked {
        Asked::Begin(number) => println!("| begin {number}"),
        Asked::Add(direction, message) => {
            println!("| add {direction}, {} octets", message.len());
            lines("message", &hex(message));
        }
    }
    for (name, facts) in [("archive", archive), ("second", second)] {
        lines(name, &format!("{:?}", facts.traced));
        lines("block after", &hex(&facts.block));
    }
}
