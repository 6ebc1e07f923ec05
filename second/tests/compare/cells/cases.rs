//! The cases of the readings, each with its facts, on the archive and on the second
//! program.

use super::notation::{numbers, septets};
use super::{compare, on_archive, on_second, Asked, Facts, SCHEME};
use crate::notation::octets;
use crate::report;
use second::septets::{pack, send};

const FILE: &str = include_str!("cases.txt");
const CASES: usize = 54;
/// "400 each if not said"
const ROOM: usize = 400;

struct Case {
    name: &'static str,
    scheme: u8,
    string: Vec<u8>,
    room: usize,
    rows: usize,
    facts: &'static str,
}

fn cases() -> Vec<Case> {
    let lines = FILE.lines().filter(|line| !line.starts_with('#'));
    let cases: Vec<Case> = lines.map(read_case).collect();
    assert_eq!(cases.len(), CASES, "the cases are there");
    cases
}

fn read_case(line: &'static str) -> Case {
    let (left, facts) = line.split_once("->").expect("an arrow");
    let words: Vec<&str> = left.split_whitespace().collect();
    let count = |name: &str| {
        let mut counts = words.iter().filter_map(|word| word.strip_prefix(name));
        counts.next().map(|count| count.parse().expect("a count"))
    };
    let is_given = |word: &&&str| !word.contains('=');
    let given: Vec<&str> = words[1..].iter().filter(is_given).copied().collect();
    let (scheme, string) = match given[..] {
        ["cells", scheme, ref string @ ..] => (octets(scheme)[0], octets(&string.join(" "))),
        ["say", ref row @ ..] => (SCHEME, send(&septets(&row.join(" ")))),
        ["raw", ref row @ ..] => (SCHEME, pack(&septets(&row.join(" ")))),
        _ => panic!("no such call: {line}"),
    };
    Case {
        name: words[0],
        scheme,
        string,
        room: count("room=").unwrap_or(ROOM),
        rows: count("rows=").unwrap_or(ROOM),
        facts,
    }
}

impl Case {
    fn asked(&self) -> Asked<'_> {
        Asked {
            scheme: self.scheme,
            string: &self.string,
            text_length: self.room,
            lines_length: 2 * self.rows,
        }
    }

    fn holds(&self, facts: &Facts) -> bool {
        let mut wanted = self.facts.split(',').map(str::trim);
        let code = wanted.next().expect("a code");
        let held = facts.laid.code.to_string() == code
            && wanted.all(|fact| self.is_fact(fact, facts))
            && (facts.laid.code == 0 || self.is_untouched(facts));
        if !held {
            report::lines(&format!("case {}", self.name), self.facts);
        }
        held
    }

    fn is_fact(&self, fact: &str, facts: &Facts) -> bool {
        match fact.split_once('=').expect("name=wanted") {
            ("text", wanted) => facts.text() == numbers(wanted),
            ("lines", wanted) => facts.lines() == lines(wanted),
            ("octets", wanted) => self.string.len().to_string() == wanted,
            _ => false,
        }
    }

    /// "a refused call writes nothing and returns 0 in every field but the code"
    fn is_untouched(&self, facts: &Facts) -> bool {
        let laid = &facts.laid;
        let marks = self.asked().marks();
        (laid.characters, laid.lines) == (0, 0)
            && (&facts.text, &facts.lines) == (&marks.0, &marks.1)
    }
}

/// "the cells of each line, with sp between two lines where a space was dropped and /
/// where none was": two octets for each line.
fn lines(words: &str) -> Vec<u8> {
    let words: Vec<&str> = words.split_whitespace().collect();
    let of_line = |line: &[&str]| {
        let cells = line[0].parse().expect("cells");
        match line.get(1) {
            Some(&"sp") => [cells, 1],
            Some(&"/") | None => [cells, 0],
            Some(_) => panic!("no mark of a break"),
        }
    };
    words.chunks(2).flat_map(of_line).collect()
}

/// By the paper alone, so that a fault is told where it is.
fn hold(run: impl Fn(&Asked) -> Facts) {
    let cases = cases();
    let held = cases.iter().filter(|case| case.holds(&run(&case.asked())));
    assert_eq!(held.count(), CASES, "a fact doesn't hold");
}

#[test]
fn hold_for_second() {
    hold(on_second);
}

#[test]
fn hold_for_archive() {
    hold(on_archive);
}

#[test]
fn agree() {
    hold(compare);
}
