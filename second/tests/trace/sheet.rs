//! Lines for the writer as they are typed, with what they say.

use crate::chance::Chance;
use second::trace::record::Record;

/// What is no newline and stands between octets.
pub const BLANKS: [u8; 3] = [b' ', b'\t', b'\r'];

/// Lines, and the records in them.
#[derive(Default)]
pub struct Sheet {
    pub input: Vec<u8>,
    pub records: Vec<Record>,
    lines: usize,
}

impl Sheet {
    /// One more line; its number.
    pub fn line(&mut self, line: impl AsRef<[u8]>) -> usize {
        let line = line.as_ref();
        assert!(!line.contains(&b'\n'), "one line");
        self.input.extend([line, b"\n"].concat());
        self.lines += 1;
        self.lines
    }

    /// A sound record, in any writing; the number of its first line.
    pub fn record(&mut self, c: &mut Chance, record: &Record) -> usize {
        let number = self.write(c, record);
        self.records.push(record.clone());
        number
    }

    /// The same for one that may be bad and isn't kept.
    pub fn write(&mut self, c: &mut Chance, record: &Record) -> usize {
        let word: &[u8] = match record.direction {
            0 => b"received",
            _ => b"sent",
        };
        let way = c.below(4);
        let mut rest = &record.message[..];
        let (beside, below) = rest.split_at(rest.len().min(beside(c, way)));
        rest = below;
        let number = self.line([word, &octets(c, way, beside), &end(c, way)].concat());
        while !rest.is_empty() {
            if way > 1 {
                self.passed_over(c);
            }
            let count = rest.len().min(c.range(1, 40));
            let (here, below) = rest.split_at(count);
            rest = below;
            self.line([first_blank(c), octets(c, way, here), end(c, way)].concat());
        }
        number
    }

    /// None, one or two lines that are passed over.
    pub fn passed_over(&mut self, c: &mut Chance) {
        for _ in 0..c.pick(&[0, 0, 0, 1, 1, 2]) {
            let mut line = blanks(c, 0);
            if c.flip() {
                let length = c.below(30);
                let noise = c.octets(length).into_iter().filter(|o| *o != b'\n');
                let note = c.pick(&["#", "##", "# received 41", "#sent", "# 4G", "#\t\r"]);
                line.extend(note.as_bytes());
                line.extend(noise);
            }
            self.line(line);
        }
    }

    /// The last line without its line feed.
    pub fn cut_line_feed(&mut self) {
        self.input.pop();
    }
}

/// How many octets stand beside the word; none now and then.
fn beside(c: &mut Chance, way: usize) -> usize {
    match way {
        0 => 255,
        1 => 10,
        _ => c.below(30),
    }
}

/// In one word, in pairs with a space, or now so and now so; the first behind a blank.
fn octets(c: &mut Chance, way: usize, octets: &[u8]) -> Vec<u8> {
    let letters = c.below(3);
    let mut line = Vec::new();
    for (place, octet) in octets.iter().enumerate() {
        match way {
            _ if place == 0 => line.extend(blanks(c, 1)),
            0 => (),
            1 => line.push(b' '),
            _ => line.extend(blanks(c, 0)),
        }
        let pair = match letters {
            0 => format!("{octet:02X}"),
            1 => format!("{octet:02x}"),
            _ => format!("{:x}{:X}", octet / 16, octet % 16),
        };
        line.extend(pair.into_bytes());
    }
    line
}

fn end(c: &mut Chance, way: usize) -> Vec<u8> {
    match way {
        0 | 1 => Vec::new(),
        2 => b"\r".to_vec(),
        _ => blanks(c, 0),
    }
}

/// With what a line starts that goes on, before the blank of its first octet.
fn first_blank(c: &mut Chance) -> Vec<u8> {
    match c.flip() {
        true => Vec::new(),
        false => blanks(c, 1),
    }
}

pub fn blanks(c: &mut Chance, least: usize) -> Vec<u8> {
    let count = least + c.pick(&[0, 0, 0, 1, 2]);
    (0..count).map(|_| c.pick(&BLANKS)).collect()
}
