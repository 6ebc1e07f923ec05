//! The bench: a line in, its answer out, lines of at most forty characters.
//!
//! A line is split into owned words, these make an order, and the order's outcome
//! makes the lines of the answer.

use crate::batch::{self, Batched, Slot};
use crate::call::{self, Called};
use crate::cells;
use crate::component::{Answer, Component};
use crate::parameter::Text;
use crate::receive::{self, Received, Shown};
use crate::table;
use std::collections::VecDeque;
use std::str::FromStr;

/// "lines of at most forty characters"
const WIDTH: usize = 40;
/// A space and two digits.
const OCTET_WIDTH: usize = 3;
/// "octets over 4,096 in a line"
const MOST_OCTETS: usize = 4_096;
/// "A line of more than 16,384 octets is too long, whatever it says."
const LONGEST_LINE: usize = 16_384;
/// "`table HEX` sets the image (1 to 300 octets, right or wrong)"
const LONGEST_TABLE: usize = 300;
/// "0 to 300; 255 at the start"
const LONGEST_BUFFER: usize = 300;
const FIRST_BUFFER: usize = 255;

/// What goes on from line to line.
#[derive(Clone, Debug)]
pub struct Bench {
    table: Vec<u8>,
    room: usize,
    lines: u64,
}

/// What a line asks for.
enum Order {
    Receive(Vec<u8>),
    Batch(Vec<u8>),
    Begin(u8, i8, Vec<u8>),
    Invoke((u8, u8), u8, i8, Vec<u8>),
    Result((u8, u8), i8, Vec<u8>),
    Error((u8, u8), i8, u8, Vec<u8>),
    Release((u8, u8)),
    ShowTable,
    SetTable(Vec<u8>),
    SetBuffer(usize),
}

/// Why a line is no order.
enum Misread {
    NotUnderstood,
    TooLong,
}

/// The words of a line that aren't taken yet.
struct Words(VecDeque<Vec<u8>>);

/// The answers to a whole input, one behind the other.
pub fn answers(input: &[u8]) -> Vec<u8> {
    let mut bench = Bench::default();
    let mut all = Vec::new();
    // "What stands behind the last newline is a line if it has at least one octet."
    for line in input.split_inclusive(|octet| *octet == b'\n') {
        let line = line.strip_suffix(b"\n").unwrap_or(line);
        all.extend(bench.answer(line).into_bytes());
    }
    all
}

impl Default for Bench {
    /// "the table starts with 238 zeros"
    fn default() -> Bench {
        Bench {
            table: vec![0; table::LENGTH],
            room: FIRST_BUFFER,
            lines: 0,
        }
    }
}

impl Bench {
    pub fn table(&self) -> &[u8] {
        &self.table
    }

    /// The reply buffer's length.
    pub fn room(&self) -> usize {
        self.room
    }

    /// The answer to the next line, given without its newline; nothing if the
    /// line is passed over.
    pub fn answer(&mut self, line: &[u8]) -> String {
        // "N counts every line of the input from 1, those passed over too."
        self.lines += 1;
        let lines = match Order::of(line) {
            Ok(None) => return String::new(),
            Ok(Some(order)) => self.carry_out(order),
            Err(Misread::NotUnderstood) => vec![format!("line {} not understood", self.lines)],
            Err(Misread::TooLong) => vec![format!("line {} too long", self.lines)],
        };
        // "and then an empty line"
        lines.join("\n") + "\n\n"
    }

    fn carry_out(&mut self, order: Order) -> Vec<String> {
        // "the buffer is cleared before each call"
        let b = &vec![0; self.room];
        let t = &self.table;
        match order {
            Order::Receive(message) => {
                let received = receive::receive(t, &message, b);
                let lines = of_received(&received);
                self.table = received.table;
                lines
            }
            // "The output is as long as `buffer N` says, cleared beforehand."
            Order::Batch(records) => {
                let batched = batch::batch(t, &records, b);
                let lines = of_batched(&batched);
                self.table = batched.table;
                lines
            }
            Order::Begin(operation, id, p) => {
                let called = call::begin(t, operation, id, &p, b);
                // "`value` is printed for a begin that succeeded."
                let value = (called.code == 0).then(|| format!("value {}", called.value));
                self.conclude(called, value)
            }
            Order::Invoke(named, operation, id, p) => {
                self.conclude(call::invoke(t, named, operation, id, &p, b), None)
            }
            Order::Result(named, id, p) => self.conclude(call::result(t, named, id, &p, b), None),
            Order::Error(named, id, code, p) => {
                self.conclude(call::error(t, named, id, code, &p, b), None)
            }
            Order::Release(named) => self.conclude(call::release(t, named, b), None),
            Order::ShowTable => octets("table", t),
            Order::SetTable(image) => {
                self.table = image;
                vec!["table set".to_string()]
            }
            Order::SetBuffer(room) => {
                self.room = room;
                vec![format!("buffer {room}")]
            }
        }
    }

    /// A call's lines; its table goes on.
    fn conclude(&mut self, called: Called, value: Option<String>) -> Vec<String> {
        let first = match called.code {
            0 => "done 0".to_string(),
            code => refused(code),
        };
        self.table = called.table;
        let mut lines = vec![first];
        lines.extend(value);
        lines.extend(written("message", &called.message));
        lines
    }
}

impl Order {
    /// None for a line that is passed over.
    fn of(line: &[u8]) -> Result<Option<Order>, Misread> {
        if line.len() > LONGEST_LINE {
            return Err(Misread::TooLong);
        }
        let mut words = Words::of(line);
        match words.0.pop_front() {
            None => Ok(None),
            Some(first) if first.starts_with(b"#") => Ok(None),
            Some(first) => Order::named(&first, words).map(Some),
        }
    }

    /// The words from left to right, so that "a first fault decides".
    fn named(first: &[u8], mut w: Words) -> Result<Order, Misread> {
        Ok(match first {
            b"receive" => Order::Receive(w.hex()?),
            b"batch" => Order::Batch(w.hex()?),
            b"begin" => Order::Begin(w.octet()?, w.id()?, w.hex()?),
            b"invoke" => Order::Invoke(w.transaction()?, w.octet()?, w.id()?, w.hex()?),
            b"result" => Order::Result(w.transaction()?, w.id()?, w.hex()?),
            b"error" => Order::Error(w.transaction()?, w.id()?, w.octet()?, w.hex()?),
            b"release" => Order::Release(w.last(Words::transaction)?),
            b"buffer" => Order::SetBuffer(w.last(Words::room)?),
            b"table" => match w.hex()? {
                none if none.is_empty() => Order::ShowTable,
                image if image.len() <= LONGEST_TABLE => Order::SetTable(image),
                _ => return Err(Misread::NotUnderstood),
            },
            _ => return Err(Misread::NotUnderstood),
        })
    }
}

impl Words {
    /// "A blank is a space, a tab or a carriage return."
    fn of(line: &[u8]) -> Words {
        let words = line.split(|octet| b" \t\r".contains(octet));
        let words = words.filter(|word| !word.is_empty());
        Words(words.map(<[u8]>::to_vec).collect())
    }

    fn octet(&mut self) -> Result<u8, Misread> {
        self.number(false)
    }

    fn id(&mut self) -> Result<i8, Misread> {
        self.number(true)
    }

    fn transaction(&mut self) -> Result<(u8, u8), Misread> {
        Ok((self.octet()?, self.octet()?))
    }

    fn room(&mut self) -> Result<usize, Misread> {
        match self.number(false)? {
            room @ 0..=LONGEST_BUFFER => Ok(room),
            _ => Err(Misread::NotUnderstood),
        }
    }

    /// "A number is one or more digits, leading zeros allowed; an id may have one
    /// minus before the digits." It's in the range of its type.
    fn number<T: FromStr>(&mut self, takes_minus: bool) -> Result<T, Misread> {
        let word = self.0.pop_front().and_then(|w| String::from_utf8(w).ok());
        let word = word.ok_or(Misread::NotUnderstood)?;
        let digits = match takes_minus {
            true => word.strip_prefix('-').unwrap_or(&word),
            false => &word,
        };
        match digits.bytes().all(|digit| digit.is_ascii_digit()) {
            true => word.parse().map_err(|_| Misread::NotUnderstood),
            false => Err(Misread::NotUnderstood),
        }
    }

    /// What is taken here is the last of the line.
    fn last<T>(mut self, take: impl Fn(&mut Words) -> Result<T, Misread>) -> Result<T, Misread> {
        let taken = take(&mut self)?;
        match self.0.is_empty() {
            true => Ok(taken),
            false => Err(Misread::NotUnderstood),
        }
    }

    /// All words left, as octets: "blanks only between pairs", so each word is
    /// pairs. "The second digit of the 4,097th octet is too long."
    fn hex(self) -> Result<Vec<u8>, Misread> {
        let mut octets = Vec::new();
        for pair in self.0.iter().flat_map(|word| word.chunks(2)) {
            octets.push(octet_of(pair).ok_or(Misread::NotUnderstood)?);
            if octets.len() > MOST_OCTETS {
                return Err(Misread::TooLong);
            }
        }
        Ok(octets)
    }
}

/// Two digits, capital or small.
pub(crate) fn octet_of(pair: &[u8]) -> Option<u8> {
    let &[high, low] = pair else {
        return None;
    };
    let digit = |character: u8| char::from(character).to_digit(16);
    u8::try_from(16 * digit(high)? + digit(low)?).ok()
}

/// The word for each verdict and each refusal.
fn word(code: u8) -> &'static str {
    match code {
        0 => "taken",
        1 => "ignored",
        2 => "cause sent",
        3 => "reject sent",
        4 => "reject received",
        5 => "network released",
        6 => "too long",
        7 => "other protocol",
        20 => "not listed",
        21 => "no value free",
        22 => "not open",
        23 => "still waiting",
        24 => "no such invoke",
        25 => "wrong parameter",
        26 => "message too long",
        27 => "buffer too short",
        28 => "table damaged",
        30 => "bad record",
        31 => "output too short",
        _ => unreachable!("no such code"),
    }
}

fn refused(code: u8) -> String {
    format!("refused {code} {}", word(code))
}

fn verdict(code: u8) -> String {
    format!("verdict {code} {}", word(code))
}

/// "The answer is `done 0`, `slots N`, and for each slot in order its `verdict` line
/// and, if its reply has octets, its `reply` line."
fn of_batched(batched: &Batched) -> Vec<String> {
    match batched.code {
        0 => {
            let count = format!("slots {}", batched.slots.len());
            let slots = batched.slots.iter().flat_map(of_slot);
            ["done 0".to_string(), count]
                .into_iter()
                .chain(slots)
                .collect()
        }
        code => vec![refused(code)],
    }
}

fn of_slot(slot: &Slot) -> Vec<String> {
    let mut lines = vec![verdict(slot.verdict)];
    lines.extend(written("reply", &slot.reply));
    lines
}

fn of_received(received: &Received) -> Vec<String> {
    let first = match received.code {
        code @ 0..=7 => verdict(code),
        code => refused(code),
    };
    let mut lines = vec![first];
    lines.extend(received.shown.iter().flat_map(|shown| of_shown(shown)));
    let cause = received.cause.iter();
    lines.extend(cause.flat_map(|part| octets("cause", &part.octets)));
    lines.extend(written("reply", &received.reply));
    lines
}

fn of_shown(shown: &Shown) -> Vec<String> {
    let mut lines = of_component(&shown.component);
    lines.extend(written("parameter", &shown.parameter.octets));
    if let Some(text) = &shown.text {
        lines.extend(octets("scheme", &[text.scheme]));
        lines.extend(octets("string", &text.string.octets));
        lines.extend(of_text(text));
        lines.extend(octets("tail", &text.tail.octets));
    }
    lines
}

/// "Wherever `string` is printed and the scheme is 0F, `lines N` follows it, then the
/// N lines of text"; "With another scheme nothing is printed for it."
fn of_text(text: &Text) -> Vec<String> {
    let string = &text.string.octets;
    let laid = cells::cells(text.scheme, string, cells::CHARACTERS, cells::LINE_OCTETS);
    match laid.code {
        0 => {
            let count = format!("lines {}", laid.line_count());
            let rows = laid.rows().into_iter().map(printed);
            [count].into_iter().chain(rows).collect()
        }
        40 => Vec::new(),
        _ => unreachable!("room enough for every text shown"),
    }
}

/// A line of text: "0A, 0C and 0D are printed as 240A, 240C and 240D, one character
/// each, so that a cell never breaks a line".
fn printed(row: &[u16]) -> String {
    let pictured = row.iter().map(|character| match character {
        0x0A | 0x0C | 0x0D => 0x2400 + character,
        other => *other,
    });
    String::from_utf16(&pictured.collect::<Vec<u16>>()).expect("no surrogates")
}

/// The lines before the parameter.
fn of_component(component: &Component) -> Vec<String> {
    let numbered = |operation: u8| format!("operation {operation}");
    let (first, others) = match component {
        Component::Invoke {
            id,
            linked,
            operation,
            ..
        } => {
            let linked = linked.map(|linked| format!("linked {linked}"));
            let others = [linked, Some(numbered(*operation))];
            (format!("invoke {id}"), others)
        }
        Component::ReturnResult { id, answer } => {
            let operation = answer.as_ref().map(|a: &Answer| numbered(a.operation));
            (format!("result {id}"), [operation, None])
        }
        Component::ReturnError { id, code, .. } => {
            let others = [Some(format!("code {code}")), None];
            (format!("error {id}"), others)
        }
        Component::Reject { id, tag, problem } => {
            let id = id.map_or("none".to_string(), |id| id.to_string());
            let problem = format!("problem {tag:02X} {problem}");
            (format!("reject {id}"), [Some(problem), None])
        }
    };
    let others = others.into_iter().flatten();
    [first].into_iter().chain(others).collect()
}

/// "printed if anything was written", and so "if there is one"
fn written(word: &str, given: &[u8]) -> Vec<String> {
    match given {
        [] => Vec::new(),
        _ => octets(word, given),
    }
}

/// The word and the octets; "a line that would pass forty characters goes on in
/// the next, which starts with a space".
pub(crate) fn octets(word: &str, given: &[u8]) -> Vec<String> {
    let beside_word = (WIDTH - word.len()) / OCTET_WIDTH;
    let (beside, below) = given.split_at(beside_word.min(given.len()));
    let first = word.to_string() + &spaced(beside);
    let further = below.chunks(WIDTH / OCTET_WIDTH).map(spaced);
    [first].into_iter().chain(further).collect()
}

/// Each octet with the space before it.
fn spaced(given: &[u8]) -> String {
    given.iter().map(|octet| format!(" {octet:02X}")).collect()
}
