//! The cases of the readings, each with its facts, on the programs and on the second
//! ones.

use crate::program::{refusal, Program, READER, SALVAGE, WRITER};
use crate::report;
use crate::trace_notation::{file, records};
use second::trace::block::{number, used, BLOCK};
use second::trace::programs::{self, Printed};
use second::trace::record::Record;
use std::io::Write;

const FILE: &str = include_str!("../compare/trace/cases.txt");
const CASES: usize = 49;

struct Case {
    name: &'static str,
    call: &'static str,
    /// What the program is given.
    input: Vec<u8>,
    facts: &'static str,
}

fn cases() -> Vec<Case> {
    let lines = FILE.lines().filter(|line| !line.starts_with('#'));
    let cases: Vec<Case> = lines.map(read_case).collect();
    assert_eq!(cases.len(), CASES, "the cases are there");
    cases
}

fn read_case(line: &'static str) -> Case {
    let (left, facts) = line.split_once("->").expect("an arrow");
    let words: Vec<&str> = left.split_whitespace().collect();
    let (name, call, arguments) = (words[0], words[1], &words[2..]);
    let input = match call {
        "write" => typed(&records(arguments)),
        _ => file(arguments),
    };
    Case {
        name,
        call,
        input,
        facts,
    }
}

/// Each record on a line of its own; a direction neither 0 nor 1 is another word.
fn typed(records: &[Record]) -> Vec<u8> {
    let line = |record: &Record| {
        let word = match record.direction {
            0 => "received",
            1 => "sent",
            _ => "other",
        };
        let octets = record.message.iter().map(|octet| format!(" {octet:02X}"));
        word.to_string() + &octets.collect::<String>() + "\n"
    };
    records.iter().map(line).collect::<String>().into_bytes()
}

impl Case {
    fn program(&self) -> Program {
        match self.call {
            "write" => WRITER,
            "read" => READER,
            "salvage" => SALVAGE,
            call => panic!("no such call: {call}"),
        }
    }

    fn holds(&self, printed: &Printed) -> bool {
        let mut wanted = self.facts.split(',').map(str::trim);
        let code = wanted.next().expect("a code");
        let held = self.code(printed).to_string() == code
            && wanted.all(|fact| self.is_fact(fact, printed));
        if !held {
            report::lines(&format!("case {}", self.name), self.facts);
        }
        held
    }

    /// "The code is 0 or the refusal's number; salvage and week refuse nothing by a code
    /// of their own, so theirs is 0."
    fn code(&self, printed: &Printed) -> u8 {
        match self.call {
            "write" if printed.error.is_empty() => 0,
            "write" => {
                let text = String::from_utf8_lossy(&printed.error).into_owned();
                let words: Vec<&str> = text.trim_end().split(' ').collect();
                match words[..] {
                    ["line", _, "refused", code] => code.parse().expect("a code"),
                    _ => panic!("no refusal: {text}"),
                }
            }
            "read" => refusal(&printed.output).map_or(0, |(_, fault)| fault),
            _ => 0,
        }
    }

    fn is_fact(&self, fact: &str, printed: &Printed) -> bool {
        let blocks = || printed.output.chunks(BLOCK);
        let (name, wanted) = fact.split_once('=').expect("name=wanted");
        let found = match name {
            "octets" => printed.output.len().to_string(),
            "used" => joined(blocks().map(used)),
            "sum" => format!("{:02X}{:02X}", printed.output[510], printed.output[511]),
            "place" => joined(refusal(&printed.output).map(|(place, _)| place)),
            "records" => {
                let text = String::from_utf8_lossy(&printed.output);
                let is_record = |line: &&str| !line.starts_with([' ', 'b']);
                text.lines().filter(is_record).count().to_string()
            }
            // Said of files that aren't refused.
            "blocks" => (self.input.len() / BLOCK).to_string(),
            "numbers" => joined(blocks().map(number)),
            "listed" => joined(listed(&printed.error)),
            "same" => (printed.output == self.input).to_string(),
            _ => panic!("no such fact: {name}"),
        };
        found == wanted
    }
}

fn joined<T: ToString>(items: impl IntoIterator<Item = T>) -> String {
    let items: Vec<String> = items.into_iter().map(|item| item.to_string()).collect();
    match items.is_empty() {
        true => "none".to_string(),
        false => items.join(" "),
    }
}

/// "listed= what is listed, as N:fault"; "the word tells number from place".
fn listed(error: &[u8]) -> Vec<String> {
    let text = String::from_utf8_lossy(error).into_owned();
    let line = |line: &str| {
        let words: Vec<&str> = line.split(' ').collect();
        match words[..] {
            ["number", n, "dropped", fault @ ("33" | "34" | "35")]
            | ["number", n, "renumbered", fault @ "36"]
            | ["place", n, "dropped", fault @ "32"] => format!("{n}:{fault}"),
            _ => panic!("no line of a list: {line}"),
        }
    };
    text.lines().map(line).collect()
}

/// By the paper alone, so that a fault is told where it is.
fn hold(run: impl Fn(&Case) -> Printed) {
    let cases = cases();
    let held = cases.iter().filter(|case| case.holds(&run(case)));
    assert_eq!(held.count(), CASES, "a fact doesn't hold");
}

#[test]
fn hold_for_second() {
    hold(|case| match case.call {
        "write" => programs::trace_writer(&case.input),
        "read" => programs::trace_reader(&case.input),
        _ => programs::salvage(&case.input),
    });
}

#[test]
fn hold_for_programs() {
    hold(|case| case.program().run(|sink| sink.write_all(&case.input)));
}

#[test]
fn agree() {
    hold(|case| case.program().compare(&case.input));
}

/// The second program's own counts of blocks and records.
#[test]
fn blocks_of_second() {
    for case in cases().iter().filter(|case| case.call == "read") {
        let read = second::trace::file::read(&case.input);
        let is_said = |name: &str, count: usize| {
            let mut said = case
                .facts
                .split(", ")
                .filter_map(|fact| fact.strip_prefix(name));
            said.all(|wanted| wanted == count.to_string())
        };
        assert!(is_said("blocks=", read.blocks as usize));
        assert!(is_said("place=", read.blocks as usize));
        assert!(is_said("records=", read.records.len()));
    }
}
