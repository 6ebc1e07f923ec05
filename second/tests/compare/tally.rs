//! What has occurred over a run, and what must.

use crate::both::{Call, Facts};
use crate::met::{met, named, Met};
use crate::passwords;
use std::collections::BTreeMap;

#[derive(Default)]
pub struct Tally {
    calls: u64,
    counts: BTreeMap<(&'static str, u8), u64>,
}

/// Each must occur at least once in so many calls, over the whole run.
const CALLS: u64 = 2_500;
/// Passwords taken and refused: by the thousand in the shortest run.
const CALLS_OFTEN: u64 = 500;

/// What 01 names.
const NAMED: [(&str, &[u8]); 8] = [
    ("verdict", &[0, 1, 2, 3, 4, 5, 6, 7]),
    ("refusal", &[20, 21, 22, 23, 24, 25, 26, 27, 28]),
    ("cause", &[29, 81, 96, 97, 98]),
    ("general", &[0, 1, 2]),
    ("invoke", &[0, 1, 2, 3, 5, 6, 7]),
    ("result", &[0, 2]),
    ("error", &[0, 2, 3]),
    ("shown", &[0x00, 0xA1, 0xA2, 0xA3, 0xA4]),
];

impl Tally {
    /// The call, from this table, and what it gave.
    pub fn add(&mut self, table: &[u8], call: &Call, facts: &Facts) {
        self.one_more();
        match (facts.code(), call) {
            (code @ 20.., _) => self.count("refusal", code),
            (code, Call::Receive(_)) => self.add_verdict(code, facts),
            (code, _) => self.count("called", code),
        }
        self.count_met(&met(table, call, facts.buffer.len()));
        if facts.received.text.is_there != 0 {
            self.count("text", facts.received.shown.operation);
        }
    }

    fn add_verdict(&mut self, code: u8, facts: &Facts) {
        self.count("verdict", code);
        self.count("shown", facts.received.shown.kind);
        match (code, facts.reply()) {
            (2, [.., cause]) => self.count("cause", cause - 128),
            (3, [.., tag, 0x01, problem]) => {
                let kinds = ["general", "invoke", "result", "error"];
                self.count(kinds[usize::from(tag - 0x80)], *problem);
            }
            (2 | 3, _) => panic!("a reply of another form"),
            _ => (),
        }
    }

    /// A call, whatever it gave.
    pub fn one_more(&mut self) {
        self.calls += 1;
    }

    pub fn count(&mut self, name: &'static str, number: u8) {
        *self.counts.entry((name, number)).or_default() += 1;
    }

    pub fn count_met(&mut self, met: &[Met]) {
        for (name, number) in met {
            self.count(name, *number);
        }
    }

    pub fn merge(&mut self, other: Tally) {
        self.calls += other.calls;
        for (key, count) in other.counts {
            *self.counts.entry(key).or_default() += count;
        }
    }

    pub fn print(&self) {
        for ((name, number), count) in &self.counts {
            println!("{name} {number}: {count}");
        }
    }

    /// Every number that 01 names, often enough, and no other.
    pub fn check(&self) {
        self.check_named(NAMED.into_iter().chain(named()));
        self.check_once_in(CALLS_OFTEN, passwords::OFTEN);
    }

    /// The same for these numbers.
    pub fn check_named(&self, named: impl IntoIterator<Item = (&'static str, &'static [u8])>) {
        self.check_once_in(CALLS, named);
    }

    /// Whether only these numbers of that name have occurred.
    pub fn has_no_other(&self, name: &str, numbers: &[u8]) -> bool {
        let mut counted = self.counts.keys().filter(|(n, _)| *n == name);
        counted.all(|(_, number)| numbers.contains(number))
    }

    fn check_once_in(
        &self,
        calls: u64,
        named: impl IntoIterator<Item = (&'static str, &'static [u8])>,
    ) {
        for (name, numbers) in named {
            for number in numbers {
                let count = self.counts.get(&(name, *number)).copied().unwrap_or(0);
                if count * calls < self.calls {
                    println!("| {name} {number}: only {count}");
                    panic!("too few");
                }
            }
            assert!(
                self.has_no_other(name, numbers),
                "a number that isn't named"
            );
        }
    }
}
