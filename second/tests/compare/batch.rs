//! A batch on the archive and on the second program, and the comparison.

mod alone;
mod bad;
pub mod cases;
mod each_length;
mod each_place;
mod long;
mod many;
mod null;

use crate::lent::Lent;
use crate::notation::hex;
use crate::report::lines;
use second::batch::SLOT;
use second::ffi;

/// All that a batch gives: what it returns, the whole output, the whole table.
#[derive(Clone, Debug, PartialEq, Eq)]
pub struct Facts {
    pub batched: ffi::Batched,
    pub output: Vec<u8>,
    pub table: Vec<u8>,
}

/// What guards a slice that is lent.
const GUARD: u8 = 0xD3;

impl Facts {
    /// The slots that were written.
    fn slots(&self) -> impl Iterator<Item = &[u8]> {
        self.output.chunks(SLOT).take(self.batched.slots)
    }
}

/// The batch on both, from this table, with this in the output beforehand; they agree,
/// and on what the paper says of every outcome.
pub fn compare(table: &[u8], records: &[u8], output: &[u8]) -> Facts {
    let archive = on_archive(table, records, output);
    let second = on_second(table, records, output);
    if archive != second {
        report(table, records, output, [&archive, &second]);
        panic!("they differ");
    }
    if !is_sound(table, output, &archive) {
        report(table, records, output, [&archive, &second]);
        panic!("no such slots");
    }
    archive
}

fn on_archive(table: &[u8], records: &[u8], output: &[u8]) -> Facts {
    let mut table = Lent::new(table, GUARD);
    let mut output = Lent::new(output, GUARD);
    Facts {
        batched: ffi::batch(table.slice(), records, output.slice()),
        output: output.back(),
        table: table.back(),
    }
}

pub fn on_second(table: &[u8], records: &[u8], output: &[u8]) -> Facts {
    let batched = second::batch(table, records, output);
    Facts {
        batched: (&batched).into(),
        output: batched.output,
        table: batched.table,
    }
}

/// A refusal "changes nothing"; else each slot is one, and "Octets after the last slot
/// stay".
fn is_sound(table: &[u8], output: &[u8], facts: &Facts) -> bool {
    let written = SLOT * facts.batched.slots;
    match facts.batched.code {
        0 => facts.slots().all(is_slot) && facts.output.get(written..) == output.get(written..),
        _ => written == 0 && facts.output == output && facts.table == table,
    }
}

/// A verdict with the length that its reply has, and "zeros to 12"; never 6, 27 or 28.
fn is_slot(slot: &[u8]) -> bool {
    let [verdict, length, reply @ ..] = slot else {
        return false;
    };
    let is_length = match verdict {
        0 | 1 | 5 | 7 => *length == 0,
        2 => *length == 6,
        3 => [11, 12].contains(length),
        4 => *length == 2,
        _ => false,
    };
    is_length
        && reply[usize::from(*length)..]
            .iter()
            .all(|octet| *octet == 0)
}

/// The exact input and both outcomes, in lines of at most forty characters.
fn report(table: &[u8], records: &[u8], output: &[u8], [archive, second]: [&Facts; 2]) {
    println!("| batch, output {}", output.len());
    lines("table", &hex(table));
    lines("records", &hex(records));
    lines("output before", &hex(output));
    for (name, facts) in [("archive", archive), ("second", second)] {
        lines(name, &format!("{:?}", facts.batched));
        lines("output after", &hex(&facts.output));
        lines("table after", &hex(&facts.table));
    }
}
