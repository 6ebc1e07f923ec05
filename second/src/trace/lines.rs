//! Records as lines: `received HEX` or `sent HEX`, and lines that go on.

use super::record::{Record, RECEIVED, SENT};
use crate::bench;

const WORD_RECEIVED: &str = "received";
const WORD_SENT: &str = "sent";
/// "a line of over 16,384 octets (its line feed not counted)"
const LONGEST_LINE: usize = 16_384;

/// A record as it is typed.
#[derive(Clone, Debug, PartialEq, Eq)]
pub struct Typed {
    /// The line on which it begins, "from 1 and counting all lines".
    pub line: usize,
    /// None where its lines are those of no record. One that is there may be bad.
    pub record: Option<Record>,
}

/// The lines of a record, "the octets as the bench prints octets".
pub fn of_record(record: &Record) -> Vec<String> {
    let word = match record.direction {
        RECEIVED => WORD_RECEIVED,
        SENT => WORD_SENT,
        _ => unreachable!("no record of a sound block"),
    };
    bench::octets(word, &record.message)
}

/// What is typed in a whole input, record by record.
pub fn typed(input: &[u8]) -> Vec<Typed> {
    let typed = grouped(input).into_iter().map(|(line, lines)| Typed {
        line,
        record: record(&lines),
    });
    typed.collect()
}

/// The lines of each record with the number of the first: "A line that starts with a
/// blank goes on with the record before it; a line passed over ends no record. Every
/// other line begins one." So does one that goes on with nothing.
fn grouped(input: &[u8]) -> Vec<(usize, Vec<&[u8]>)> {
    let mut groups: Vec<(usize, Vec<&[u8]>)> = Vec::new();
    for (number, line) in (1..).zip(lines(input)) {
        if is_passed_over(line) {
            continue;
        }
        match groups.last_mut() {
            Some((_, lines)) if goes_on(line) => lines.push(line),
            _ => groups.push((number, vec![line])),
        }
    }
    groups
}

/// "the last line may lack its line feed"
fn lines(input: &[u8]) -> impl Iterator<Item = &[u8]> {
    let lines = input.split_inclusive(|octet| *octet == b'\n');
    lines.map(|line| line.strip_suffix(b"\n").unwrap_or(line))
}

fn is_blank(octet: u8) -> bool {
    b" \t\r".contains(&octet)
}

/// "a line of blanks, or one whose first character that is no blank is #"
fn is_passed_over(line: &[u8]) -> bool {
    let first = line.iter().find(|octet| !is_blank(**octet));
    !is_long(line) && [None, Some(&b'#')].contains(&first)
}

fn goes_on(line: &[u8]) -> bool {
    !is_long(line) && line.first().is_some_and(|octet| is_blank(*octet))
}

/// Such a line is "a record of its own whatever it says", a bad one.
fn is_long(line: &[u8]) -> bool {
    line.len() > LONGEST_LINE
}

/// What these lines say, if they begin as a record does and go on with whole octets.
fn record(lines: &[&[u8]]) -> Option<Record> {
    let first = lines[0];
    if is_long(first) || goes_on(first) {
        return None;
    }
    let words = lines
        .iter()
        .flat_map(|line| line.split(|octet| is_blank(*octet)));
    let mut words = words.filter(|word| !word.is_empty());
    let word = words.next()?;
    let direction = match word {
        _ if word == WORD_RECEIVED.as_bytes() => RECEIVED,
        _ if word == WORD_SENT.as_bytes() => SENT,
        _ => return None,
    };
    let pairs = words.flat_map(|word| word.chunks(2));
    let message = pairs.map(bench::octet_of).collect::<Option<Vec<u8>>>()?;
    Some(Record { direction, message })
}
