//! The cases of firmware/cases.txt, of four.txt and of batch.txt, with their expected
//! facts: on both, those of the last two on the second program alone too.

use crate::batch;
use crate::both::{compare, on_second, pattern, Call, Facts, Named};
use crate::notation::octets;
use crate::tables::{self, Entry, ENTRY};
use second::ffi::Span;

const FILE: &str = concat!(env!("CARGO_MANIFEST_DIR"), "/../firmware/cases.txt");

/// The readings of "Four questions at once", by their numbers.
const FOUR: &str = include_str!("four.txt");

/// The readings of "A morning's messages in one call".
const BATCH: &str = include_str!("batch.txt");

/// What runs a case: a call from this table, with a buffer of this length; or a batch.
#[derive(Clone, Copy)]
struct Run {
    call: fn(&[u8], &Call, usize) -> Facts,
    batch: batch::cases::Run,
}

const ON_BOTH: Run = Run {
    call: compare,
    batch: batch::compare,
};

const ON_SECOND: Run = Run {
    call: |table, call, room| on_second(table, call, pattern(room)),
    batch: batch::on_second,
};

struct Case {
    call: Call,
    table: Vec<u8>,
    room: usize,
    /// The entry that the call concerns, for a begin told by its value.
    entry: usize,
}

#[test]
fn cases() {
    let text = std::fs::read_to_string(FILE).expect("the case file");
    assert!(run(&text, ON_BOTH) > 100, "the cases are there");
}

#[test]
fn four() {
    assert!(run(FOUR, ON_BOTH) > 50, "the cases are there");
}

#[test]
fn four_on_the_second_alone() {
    run(FOUR, ON_SECOND);
}

#[test]
fn batch() {
    assert!(run(BATCH, ON_BOTH) > 30, "the cases are there");
}

#[test]
fn batch_on_the_second_alone() {
    run(BATCH, ON_SECOND);
}

/// Runs all lines; how many there are.
fn run(text: &str, run: Run) -> usize {
    let is_case = |line: &&str| !line.is_empty() && !line.starts_with('#');
    let lines = text.lines().filter(is_case);
    let held: Vec<bool> = lines.map(|line| run_line(line, run)).collect();
    assert!(held.iter().all(|held| *held), "a fact doesn't hold");
    held.len()
}

fn run_line(line: &str, run: Run) -> bool {
    let (left, facts) = line.split_once("->").expect("an arrow");
    let words: Vec<&str> = left.split_whitespace().collect();
    let held = match words[1] {
        "batch" => batch::cases::holds(&words[2..], facts, run.batch),
        _ => call_holds(&words[1..], facts, run),
    };
    if !held {
        println!("| case {}", words[0]);
    }
    held
}

fn call_holds(words: &[&str], facts: &str, run: Run) -> bool {
    let case = read_case(words);
    let outcome = (run.call)(&case.table, &case.call, case.room);
    let mut facts = facts.split(',').map(str::trim);
    let code = facts.next().expect("a code");
    let mut held = outcome.code().to_string() == code;
    for fact in facts {
        let (name, wanted) = fact.split_once('=').expect("name=wanted");
        held &= holds(name, wanted, &case, &outcome);
    }
    held
}

/// "the call, its table and arguments"
fn read_case(words: &[&str]) -> Case {
    let is_room = |w: &&&str| w.starts_with("buf=");
    let room = words.iter().find(is_room);
    let room = room.map_or(300, |w| w["buf=".len()..].parse().expect("a length"));
    let words: Vec<&str> = words.iter().filter(|w| !is_room(w)).copied().collect();
    let numbers = match words[0] {
        "receive" => 0,
        "begin" | "release" => 2,
        "result" => 3,
        _ => 4,
    };
    let (table, words_behind) = read_table(&words[1..]);
    let (n, rest) = words_behind.split_at(numbers);
    let n: Vec<i32> = n.iter().map(|w| w.parse().expect("a number")).collect();
    let call = read_call(words[0], &n, octets(&rest.join(" ")));
    Case {
        entry: entry_of(&call),
        call,
        table,
        room,
    }
}

/// A table, and the words behind it: its name; zeros(N); or one entry, all others
/// closed, o0= or n0= and its octets with blanks between them.
pub fn read_table<'a>(words: &'a [&'a str]) -> (Vec<u8>, &'a [&'a str]) {
    let (first, mut rest) = words.split_first().expect("a table");
    if first.starts_with("zeros(") {
        return (octets(first), rest);
    }
    let Some((named, start)) = first.split_once('=') else {
        return (tables::named(first), rest);
    };
    let mut entry = octets(start);
    while let (true, [more, behind @ ..]) = (entry.len() < ENTRY, rest) {
        entry.extend(octets(more));
        rest = behind;
    }
    (tables::image(&[(tables::number(named), entry)]), rest)
}

fn read_call(name: &str, n: &[i32], octets: Vec<u8>) -> Call {
    let named = || (n[0] as u8, n[1] as u8);
    match name {
        "receive" => Call::Receive(octets),
        "begin" => Call::Begin(n[0] as u8, n[1] as i8, octets),
        "invoke" => Call::Invoke(named(), n[2] as u8, n[3] as i8, octets),
        "result" => Call::Result(named(), n[2] as i8, octets),
        "error" => Call::Error(named(), n[2] as i8, n[3] as u8, octets),
        "release" => Call::Release(named()),
        _ => panic!("no such call: {name}"),
    }
}

fn entry_of(call: &Call) -> usize {
    let at = |(flag, value): Named| tables::place(flag, value) % tables::LENGTH;
    match call {
        Call::Receive(message) => message.first().map_or(0, |f| at((f >> 7, f >> 4 & 7))),
        Call::Begin(..) => 0,
        Call::Invoke(named, ..) | Call::Result(named, ..) => at(*named),
        Call::Error(named, ..) | Call::Release(named) => at(*named),
    }
}

fn holds(name: &str, wanted: &str, case: &Case, facts: &Facts) -> bool {
    let shown = &facts.received.shown;
    let text = &facts.received.text;
    let cause = &facts.received.cause;
    let number = |there: u8, n: i32| match wanted {
        "None" => there == 0,
        _ => there == 1 && n.to_string() == wanted,
    };
    let part = |span: Span| part(case, span) == octets(wanted);
    match name {
        "reply" => facts.reply() == octets(wanted),
        "length" => facts.received.written.to_string() == wanted,
        "kept" => (facts.table == case.table) == (wanted == "True"),
        "value" => facts.value.to_string() == wanted,
        "id" => number(shown.has_id, shown.id.into()),
        "linked" => number(shown.has_linked, shown.linked.into()),
        "operation" => number(shown.has_operation, shown.operation.into()),
        "code" => shown.code.to_string() == wanted,
        "problem" => octets(wanted) == [shown.tag, shown.problem],
        "parameter" => part(shown.parameter),
        "scheme" => text.is_there == 1 && octets(wanted) == [text.scheme],
        "string" if wanted == "none" => text.is_there == 0,
        "string" => text.is_there == 1 && part(text.string),
        "tail" => text.is_there == 1 && text.tail.start == text.string.end && part(text.tail),
        "cause" if wanted == "none" => cause.is_there == 0,
        "cause" => cause.is_there == 1 && part(cause.contents),
        "shows" => shown.kind == kind(wanted),
        _ => entry_holds(name, wanted, &entry(case, facts)),
    }
}

/// What is said of an entry: its image, what waits in it, whether it is open.
pub fn entry_holds(name: &str, wanted: &str, entry: &Entry) -> bool {
    match name {
        "entry" => entry[..] == octets(wanted),
        "own" => tables::owns_of(entry) == tables::invokes(wanted),
        "peers" => tables::peers_of(entry) == tables::invokes(wanted),
        "open" => (entry[0] != 0) == (wanted == "True"),
        _ => false,
    }
}

/// The entry that the call concerns, afterwards.
fn entry(case: &Case, facts: &Facts) -> Entry {
    let at = case.entry + ENTRY * usize::from(facts.value);
    let entry = facts.table.get(at..at + ENTRY).expect("a whole table");
    entry.try_into().expect("seventeen octets")
}

/// The octets of a part of the case's message.
fn part(case: &Case, span: Span) -> Vec<u8> {
    match &case.call {
        Call::Receive(message) => message[span.start..span.end].to_vec(),
        _ => panic!("no message"),
    }
}

fn kind(name: &str) -> u8 {
    match name {
        "invoke" => 0xA1,
        "result" => 0xA2,
        "error" => 0xA3,
        "reject" => 0xA4,
        _ => 0x00,
    }
}
