//! What has been printed over a run, and what must be.

use crate::met::{named, Met};
use crate::reading::{lines, Line};
use std::collections::BTreeMap;

#[derive(Default)]
pub struct Occurrences {
    answers: u64,
    counts: BTreeMap<String, u64>,
}

/// Each must occur at least once in so many answers, over the whole run.
const ANSWERS: u64 = 2_500;

/// All that an answer's lines begin with.
const NAMED: &[&str] = &[
    "verdict 0 taken",
    "verdict 1 ignored",
    "verdict 2 cause sent",
    "verdict 3 reject sent",
    "verdict 4 reject received",
    "verdict 5 network released",
    "verdict 6 too long",
    "verdict 7 other protocol",
    "refused 20 not listed",
    "refused 21 no value free",
    "refused 22 not open",
    "refused 23 still waiting",
    "refused 24 no such invoke",
    "refused 25 wrong parameter",
    "refused 26 message too long",
    "refused 27 buffer too short",
    "refused 28 table damaged",
    "refused 30 bad record",
    "refused 31 output too short",
    "done 0",
    "invoke",
    "result",
    "error",
    "reject",
    "reject none",
    "linked",
    "operation",
    "code",
    "problem",
    "value",
    "slots 0",
    "slots",
    "parameter",
    "scheme",
    "string",
    "lines 1",
    "lines",
    "text",
    "tail",
    "tail alone",
    "cause",
    "cause alone",
    "reply",
    "message",
    "table",
    "table set",
    "buffer",
    "not understood",
    "too long",
    "going on",
];

impl Occurrences {
    /// What was printed, and what the calls met.
    pub fn add(&mut self, output: &[u8], met: &[Met]) {
        for line in lines(output) {
            match line {
                // The end of an answer.
                Line::Own(b"") => self.answers += 1,
                Line::Own(line) => self.count(kind(line)),
                Line::OfText(_) => self.count("text".to_string()),
            }
        }
        for (name, number) in met {
            self.count(format!("{name} {number}"));
        }
    }

    fn count(&mut self, name: String) {
        *self.counts.entry(name).or_default() += 1;
    }

    /// Every one often enough, and no other.
    pub fn check(&self) {
        let printed = NAMED.iter().map(|name| name.to_string());
        let named: Vec<String> = printed.chain(to_meet()).collect();
        for name in &named {
            let count = self.counts.get(name).copied().unwrap_or(0);
            println!("{name}: {count}");
            if count * ANSWERS < self.answers {
                println!("| {name}: only {count}");
                panic!("too few");
            }
        }
        let known = self.counts.keys().all(|name| named.contains(name));
        assert!(known, "a line that bench.md doesn't name");
    }
}

/// What calls must meet, each number for itself.
fn to_meet() -> impl Iterator<Item = String> {
    let each = |(name, numbers): (&'static str, &'static [u8])| {
        let numbers = numbers.iter();
        numbers.map(move |number| format!("{name} {number}"))
    };
    named().flat_map(each)
}

fn kind(line: &[u8]) -> String {
    let line = std::str::from_utf8(line).expect("plain text");
    let (first, rest) = line.split_once(' ').unwrap_or((line, ""));
    match (first, rest) {
        ("", _) => "going on".to_string(),
        ("verdict" | "refused" | "done", _) => line.to_string(),
        ("reject", "none") | ("table", "set") => line.to_string(),
        ("lines", "1") | ("slots", "0") => line.to_string(),
        ("tail" | "cause", "") => format!("{first} alone"),
        // Behind the line's number.
        ("line", _) => rest.split_once(' ').unwrap_or_default().1.to_string(),
        _ => first.to_string(),
    }
}
