//! Lines of every command, understood or not: numbers, words, hex, blanks.

use crate::chance::Chance;
use crate::notation::hex;
use crate::proved::compare;
use crate::tables;
use crate::talk::Talk;
use crate::writing::{blanks, spoiled, with_octets, BLANKS};

/// A table, and a line that is understood and changes or shows something there.
const LINES: &[(&str, &str)] = &[
    ("fresh", "receive 0B3B1C10A10E02010502013C300604010F040141"),
    ("fresh", "receive 0B 3c"),
    ("own59", "receive 8B2A 0802E09D 1C08A406020163810100"),
    ("fresh", "receive"),
    ("fresh", "batch 01 0b"),
    ("fresh", "begin 59 1 300604010F040141"),
    ("own59", "begin 17 -128 04 01 92"),
    ("open", "invoke 0 0 17 -1 040192"),
    ("ownopen", "invoke 1 0 10 127 05 00"),
    ("w1", "result 0 0 5 300604010F040131"),
    ("w1", "result 0 0 5"),
    ("both17", "error 1 0 7 38 0a0101"),
    ("owns3", "invoke 1 0 10 2 0500"),
    ("peers4", "result 0 0 8"),
    ("w1", "error 0 0 5 1"),
    ("w1", "release 0 0"),
    ("own59", "release 1 0"),
    ("fresh", "buffer 12"),
    ("w1", "table"),
    ("fresh", "table 01 fF 0a"),
    ("w1", "# release 0 0"),
];

const NUMBERS: &[&str] = &[
    "0",
    "1",
    "2",
    "5",
    "6",
    "7",
    "9",
    "10",
    "17",
    "59",
    "72",
    "100",
    "127",
    "128",
    "129",
    "254",
    "255",
    "256",
    "257",
    "299",
    "300",
    "301",
    "999",
    "1000",
    "0255",
    "00255",
    "00256",
    "00300",
    "00301",
    "000",
    "0000000000000000000000000000000000000005",
    "-0",
    "-000",
    "-1",
    "-5",
    "-127",
    "-128",
    "-129",
    "-130",
    "-255",
    "-256",
    "-00128",
    "-00129",
    "-000000000000000000000000000000000000005",
    "32767",
    "32768",
    "65535",
    "65536",
    "65541",
    "-65541",
    "2147483648",
    "4294967295",
    "4294967296",
    "4294967301",
    "-4294967301",
    "9223372036854775808",
    "18446744073709551615",
    "18446744073709551616",
    "18446744073709551621",
    "-18446744073709551621",
    "340282366920938463463374607431768211456",
    "340282366920938463463374607431768211461",
    "99999999999999999999999999999999999999999999",
    "-",
    "--5",
    "-+5",
    "+5",
    "5-",
    "5+",
    "- 5",
    "5.",
    "5,",
    "0x5",
    "5h",
    "A",
    "0A",
    "five",
    "\"5\"",
    "5#",
    "#5",
];

const WORDS: &[&str] = &[
    "0", "5", "00", "-1", "0B", "zz", "#", "# x", "-", "receive", "table", "set", "none", "\0",
];

/// Lines of a base, each from the base's table and a buffer of 255 octets.
struct Lines {
    talk: Talk,
    image: Vec<u8>,
}

impl Lines {
    fn new() -> Lines {
        let talk = Talk::default();
        let image = talk.table().to_vec();
        Lines { talk, image }
    }

    fn from(&mut self, table: &str) {
        self.image = tables::named(table);
    }

    fn add(&mut self, line: impl AsRef<[u8]>) {
        if self.talk.table() != self.image {
            self.talk.say(format!("table {}", hex(&self.image)));
        }
        if self.talk.room() != 255 {
            self.talk.say(b"buffer 255");
        }
        self.talk.say(line);
        // Now and then the table itself, to see that nothing changed.
        if self.talk.lines.is_multiple_of(50) {
            self.talk.say(b"table");
        }
    }

    fn compare(self) {
        compare(&self.talk.input);
    }
}

fn is_number(word: &str) -> bool {
    word.parse::<i64>().is_ok()
}

/// Each of these numbers at the place of each number.
#[test]
fn numbers() {
    let mut lines = Lines::new();
    for (table, line) in LINES {
        lines.from(table);
        let words: Vec<&str> = line.split(' ').collect();
        for place in 1..words.len() {
            if !is_number(words[place]) {
                continue;
            }
            for number in NUMBERS {
                let mut changed = words.clone();
                changed[place] = number;
                lines.add(changed.join(" "));
            }
        }
    }
    lines.compare();
}

/// Every number from -400 to 400 at the place of each number.
#[test]
fn ranges() {
    let mut lines = Lines::new();
    for number in -400..=400 {
        for (table, line) in LINES {
            lines.from(table);
            let words: Vec<&str> = line.split(' ').collect();
            let places = (1..words.len()).filter(|place| is_number(words[*place]));
            for place in places {
                let number = number.to_string();
                let mut changed = words.clone();
                changed[place] = &number;
                lines.add(changed.join(" "));
            }
        }
    }
    lines.compare();
}

/// Words taken out, doubled, put in, and other first words.
#[test]
fn words() {
    let mut lines = Lines::new();
    for (table, line) in LINES {
        lines.from(table);
        let words: Vec<&str> = line.split(' ').collect();
        for place in 0..=words.len() {
            lines.add(words[..place].join(" "));
            lines.add(words[place..].join(" "));
            for extra in WORDS {
                let mut changed = words.clone();
                changed.insert(place, extra);
                lines.add(changed.join(" "));
            }
            if place < words.len() {
                let mut changed = words.clone();
                changed.remove(place);
                lines.add(changed.join(" "));
                changed.insert(place, words[place]);
                changed.insert(place, words[place]);
                lines.add(changed.join(" "));
            }
        }
        for first in ["Receive", "RECEIVE", "receiv", "receives", "tables", "set"] {
            lines.add([&[first], &words[1..]].concat().join(" "));
        }
        lines.add(line.to_uppercase());
        lines.add(line.replace(' ', ""));
    }
    lines.compare();
}

/// Each octet in the place of each character, and before and behind it.
#[test]
fn octets() {
    let mut lines = Lines::new();
    for (table, line) in LINES {
        lines.from(table);
        for place in 0..=line.len() {
            let (before, behind) = line.as_bytes().split_at(place);
            for octet in 0..=255 {
                lines.add([before, &[octet], behind].concat());
                if let [_, behind @ ..] = behind {
                    lines.add([before, &[octet], behind].concat());
                }
            }
            lines.add([before, behind.get(1..).unwrap_or_default()].concat());
            lines.add(before);
        }
    }
    lines.compare();
}

/// Blanks of each kind at each place, one or more of them.
#[test]
fn blanks_everywhere() {
    let mut lines = Lines::new();
    let mut kinds: Vec<Vec<u8>> = BLANKS.iter().map(|blank| vec![*blank]).collect();
    kinds.extend([b"  ".to_vec(), b" \t\r\t ".to_vec(), vec![b' '; 50]]);
    for (table, line) in LINES {
        lines.from(table);
        for blank in &kinds {
            for place in 0..=line.len() {
                let (before, behind) = line.as_bytes().split_at(place);
                lines.add([before, blank, behind].concat());
            }
            let words: Vec<&[u8]> = line.as_bytes().split(|o| *o == b' ').collect();
            lines.add(words.join(&blank[..]));
            lines.add([blank, &words.join(&blank[..])[..], blank].concat());
            lines.add(blank);
        }
    }
    lines.compare();
}

/// Hex in every writing, right and with one fault.
#[test]
fn hex_writings() {
    let mut c = Chance::new(31);
    let mut lines = Lines::new();
    for round in 0..12_000 {
        let (table, line) = LINES[round % LINES.len()];
        lines.from(table);
        let words = line.split(' ');
        let words: Vec<String> = words.filter(|w| is_kept(w)).map(str::to_string).collect();
        let count = c.pick(&[0, 1, 2, 3, 20, 70, 237, 238, 239, 255, 256, 299, 300, 301]);
        let octets = c.octets(count);
        let right = with_octets(&mut c, &words, &octets);
        lines.add(spoiled(&mut c, &right));
        lines.add(right);
    }
    lines.compare();
}

/// A command or a number, and not the octets behind.
fn is_kept(word: &str) -> bool {
    let is_command = word.len() > 4 && word.bytes().all(|o| o.is_ascii_lowercase());
    is_command || (is_number(word) && word.len() < 4)
}

/// Lines that are passed over, and such as only look so.
#[test]
fn passed_over() {
    let mut c = Chance::new(32);
    let mut lines = Lines::new();
    lines.from("w1");
    for octet in 0..=255 {
        lines.add([octet]);
        lines.add([b'#', octet]);
        lines.add([octet, b'#']);
        lines.add([b' ', octet, b'#', b' ']);
    }
    for _ in 0..2_000 {
        let rest = c.pick(&[
            "",
            "#",
            "##",
            "# table",
            "#table",
            "table #",
            "table # x",
            "#\0",
        ]);
        lines.add(
            [
                blanks(&mut c, 0),
                rest.as_bytes().to_vec(),
                blanks(&mut c, 0),
            ]
            .concat(),
        );
    }
    lines.compare();
}
