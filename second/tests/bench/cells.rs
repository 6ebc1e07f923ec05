//! Texts on forty cells, wherever a string is printed.

use crate::cells_notation::septets;
use crate::chance::Chance;
use crate::notation::hex;
use crate::parameters::{row, shortest};
use crate::proved::compare;
use crate::reading::{lines, width, Line};
use crate::tables;
use crate::texts;
use second::bench::answers;
use second::septets::{pack, send};

/// Texts by chance.
const TEXTS: usize = 3_000;
/// The longest string that is shown, and the longest message that is taken.
const LONGEST: usize = 160;
const LONGEST_MESSAGE: usize = 255;

/// Where a string is printed: the table, the message's first octets, whether a result.
#[derive(Clone, Copy)]
struct Place {
    table: &'static str,
    head: &'static [u8],
    operation: u8,
    is_result: bool,
}

const PLACES: [Place; 6] = [
    place("fresh", &[0x0B, 0x3B, 0x1C], 60, false),
    place("fresh", &[0x6B, 0x3B, 0x1C], 61, false),
    place("open", &[0x0B, 0x3A], 60, false),
    place("ownopen", &[0x8B, 0x3A], 61, false),
    place("own59", &[0x8B, 0x3A], 59, true),
    place("own59", &[0x8B, 0x2A, 0x1C], 59, true),
];

const fn place(table: &'static str, head: &'static [u8], operation: u8, is_result: bool) -> Place {
    Place {
        table,
        head,
        operation,
        is_result,
    }
}

fn element(tag: u8, contents: &[u8]) -> Vec<u8> {
    [&[tag], &shortest(contents.len())[..], contents].concat()
}

impl Place {
    /// The message; its Facility has one octet of length.
    fn message(&self, scheme: u8, string: &[u8], tail: &[u8]) -> Vec<u8> {
        let text = [&element(0x04, &[scheme]), &element(0x04, string), tail].concat();
        let operation = [element(0x02, &[self.operation]), element(0x30, &text)].concat();
        let id = element(0x02, &[0x01]);
        let facility = match self.is_result {
            true => element(0xA2, &[id, element(0x30, &operation)].concat()),
            false => element(0xA1, &[id, operation].concat()),
        };
        [self.head, &[facility.len() as u8], &facility].concat()
    }

    /// Two lines: the table from which it is taken, and the message.
    fn lines(&self, scheme: u8, string: &[u8], tail: &[u8]) -> String {
        let message = self.message(scheme, string, tail);
        assert!(message.len() <= LONGEST_MESSAGE, "too long to be taken");
        let table = tables::named(self.table);
        format!("table {}\nreceive {}\n", hex(&table), hex(&message))
    }
}

/// As W1, with this string.
fn w1(string: &[u8]) -> String {
    PLACES[0].lines(0x0F, string, &[])
}

/// What is printed of the texts, one behind the other.
fn printed(output: &[u8]) -> Vec<String> {
    let of_text = |line: Line| match line {
        Line::Own(_) => None,
        Line::OfText(line) => Some(String::from_utf8(line.to_vec()).expect("UTF-8")),
    };
    lines(output).into_iter().filter_map(of_text).collect()
}

fn count(output: &[u8], wanted: impl Fn(&Line) -> bool) -> usize {
    lines(output).iter().filter(|line| wanted(line)).count()
}

/// Septets in the notation of the readings, and the lines that are seen.
fn seen() -> Vec<(&'static str, Vec<String>)> {
    let forty = |seen: &str| seen.repeat(40);
    let a = forty("A");
    let plain = |seen: &[&str]| seen.iter().map(|line| line.to_string()).collect();
    vec![
        (
            "48 65 6C*2 6F 2C 20 77 6F 72 6C 64 21",
            plain(&["Hello, world!"]),
        ),
        ("04 05 7F 5B 1E 10 1B.65", plain(&["èéàÄßΔ€"])),
        ("00 02 11 40 5F 60 24 1B.3C 1B.3E", plain(&["@$_¡§¿¤[]"])),
        ("41 0A 42 1B.0A 43 0D 44", plain(&["A␊B␌C␍D"])),
        // Pads and CRs that stay.
        ("41*7", plain(&["AAAAAAA"])),
        ("41*7 0D", plain(&["AAAAAAA␍␍"])),
        ("41*6 0D", plain(&["AAAAAA␍"])),
        ("41*6 1B", plain(&["AAAAAA "])),
        // Breaks, with spaces around.
        ("41*40", plain(&[&a])),
        ("41*40 42", plain(&[&a, "B"])),
        ("41*40 20 42", plain(&[&a, "B"])),
        ("41*40 20*2 42", plain(&[&a, " B"])),
        (
            "41*38 20*2 42*5",
            plain(&[&("A".repeat(38) + " "), "BBBBB"]),
        ),
        ("41*20 20 41*20", plain(&[&"A".repeat(20), &"A".repeat(20)])),
        ("1B.65*40 0A", plain(&[&forty("€"), "␊"])),
        ("0A*41", plain(&[&forty("␊"), "␊"])),
        // Lines of no cells.
        ("41*40 20", plain(&[&a, ""])),
        ("41*40 1B", plain(&[&a, ""])),
        ("20 41*40", plain(&["", &a])),
        ("20 41*40 20*2 41*40", plain(&["", &a, "", &a])),
        ("20*41", plain(&[&forty(" "), ""])),
        (
            "20 41*40 20*2 41*40 20*2 41*40 20*2 41*40 20 41*14",
            plain(&["", &a, "", &a, "", &a, "", &a, &"A".repeat(14)]),
        ),
    ]
}

#[test]
fn by_hand() {
    for (row, seen) in seen() {
        assert_eq!(printed(&answers(w1(&send(&septets(row))).as_bytes())), seen);
    }
}

/// The texts made by hand; every septet alone and behind an escape; at each place
/// every scheme; strings of each length that is shown, with a long tail too.
#[test]
fn one_by_one() {
    let mut input = String::new();
    for (row, _) in seen() {
        input += &w1(&send(&septets(row)));
        input += &w1(&pack(&septets(row)));
    }
    for septet in 0..=127 {
        input += &w1(&send(&[0x41, septet, 0x42]));
        input += &w1(&send(&[0x41, 0x1B, septet, 0x42]));
    }
    let string = send(&septets("41*40 20 1B.65"));
    for place in PLACES {
        for scheme in 0..=255 {
            input += &place.lines(scheme, &string, &[]);
        }
    }
    let mut c = Chance::new(81);
    for length in 1..=LONGEST {
        let place = c.pick(&PLACES);
        let string = c.octets(length);
        let left = LONGEST_MESSAGE - place.message(0x0F, &string, &[]).len();
        // The headers around may grow by three octets, and three are its own.
        let tail = element(0x04, &vec![0x41; left - 6]);
        input += &place.lines(0x0F, &string, &[]);
        input += &place.lines(0x0F, &string, &tail);
    }
    let output = compare(input.as_bytes());
    let laid = |line: &Line| matches!(line, Line::Own(line) if line.starts_with(b"lines "));
    let expected = 2 * seen().len() + 2 * 128 + PLACES.len() + 2 * LONGEST;
    assert_eq!(count(&output, laid), expected);
}

/// A string of a text by chance, as a sender packs it or not, or of any octets.
fn string(c: &mut Chance) -> Vec<u8> {
    let row = texts::row(c, 182);
    let length = c.range(1, LONGEST);
    let string = match c.below(8) {
        0..=4 => send(&row),
        5..=6 => pack(&row),
        _ => c.octets(length),
    };
    match string.is_empty() {
        true => vec![0x41],
        false => string,
    }
}

#[test]
fn by_chance() {
    let mut c = Chance::new(82);
    let mut input = String::new();
    for _ in 0..TEXTS {
        let place = c.pick(&PLACES);
        let scheme = match c.below(10) {
            0 => c.octet(),
            _ => 0x0F,
        };
        let tail = match c.below(4) {
            0 => row(&mut c, 2, 12),
            _ => Vec::new(),
        };
        input += &place.lines(scheme, &string(&mut c), &tail);
    }
    let output = compare(input.as_bytes());
    // Every count of lines that isn't rare, and lines of no cells.
    for wanted in 1..=7 {
        let told = format!("lines {wanted}").into_bytes();
        let times = count(&output, |line| *line == Line::Own(&told));
        println!("lines {wanted}: {times}");
        assert!(times > TEXTS / 300);
    }
    let empty = count(&output, |line| *line == Line::OfText(b""));
    println!("empty: {empty}");
    assert!(empty > TEXTS / 50);
}

/// Forty characters, whatever their octets: the widest lines have forty, and some of
/// them 120 octets.
#[test]
fn no_wider_than_forty() {
    let rows = [
        "1B.65*90",
        "0A*120",
        "10*120",
        "00*120",
        "1B.65*39 20 1B.65*40",
        "20*120",
    ];
    let input: String = rows.iter().map(|row| w1(&send(&septets(row)))).collect();
    let output = compare(input.as_bytes());
    let lines = || output.split(|octet| *octet == b'\n');
    assert_eq!(lines().map(width).max(), Some(40));
    assert_eq!(lines().map(<[u8]>::len).max(), Some(120));
}
