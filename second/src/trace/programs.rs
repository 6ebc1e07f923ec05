//! The three programs, each from the whole of its standard input to all that it prints.

use super::block::{NUMBER, RECORD, SHORT};
use super::file::{self, Written};
use super::lines::{self, Typed};
use super::record::Record;
use super::salvage::{self, Listed};

/// What a program prints.
#[derive(Clone, Debug, Default, PartialEq, Eq)]
pub struct Printed {
    pub output: Vec<u8>,
    pub error: Vec<u8>,
}

/// "records as lines" in, "the trace file" out; "if refused, one line: `line N refused
/// 35`", N of "the line on which the first bad record begins".
pub fn trace_writer(input: &[u8]) -> Printed {
    let typed = lines::typed(input);
    let is_bad = |typed: &&Typed| !typed.record.as_ref().is_some_and(Record::is_sound);
    let bad = typed.iter().find(is_bad);
    let records = typed.iter().map_while(|typed| typed.record.clone());
    let Written { file, .. } = file::write(&records.collect::<Vec<Record>>());
    Printed {
        output: file,
        error: printed(bad.map(|bad| format!("line {} refused {RECORD}", bad.line))),
    }
}

/// "a trace file" in, "records as lines; if refused, `block N refused R` as the last
/// line" out.
pub fn trace_reader(input: &[u8]) -> Printed {
    let read = file::read(input);
    let records = read.records.iter().flat_map(lines::of_record);
    let refused = (read.code != 0).then(|| format!("block {} refused {}", read.blocks, read.code));
    Printed {
        output: printed(records.chain(refused)),
        error: Vec::new(),
    }
}

/// "a file, sound or not" in, "the mended file" out, and "the list, a line for each
/// block dropped or renumbered".
pub fn salvage(input: &[u8]) -> Printed {
    let salvaged = salvage::salvage(input);
    Printed {
        output: salvaged.file,
        error: printed(salvaged.list.iter().map(listed)),
    }
}

/// "`number N dropped R` (33 to 35), `number N renumbered 36`, `place N dropped 32`"
fn listed(Listed { number, fault }: &Listed) -> String {
    match *fault {
        SHORT => format!("place {number} dropped {fault}"),
        NUMBER => format!("number {number} renumbered {fault}"),
        _ => format!("number {number} dropped {fault}"),
    }
}

/// "Each line printed ends with one line feed, the last too".
fn printed(lines: impl IntoIterator<Item = String>) -> Vec<u8> {
    let ended = lines.into_iter().map(|line| line + "\n");
    ended.collect::<String>().into_bytes()
}
