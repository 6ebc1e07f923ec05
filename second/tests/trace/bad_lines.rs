//! Every way in which lines are those of a bad record.

use crate::blocks;
use crate::chance::Chance;
use crate::sheet::{blanks, Sheet};
use second::trace::record::Record;

/// The ways, by name.
pub const WAYS: [&str; 21] = [
    "another word",
    "a word and more",
    "a part of a word",
    "a word in capitals",
    "no word",
    "octets at the word",
    "no octets",
    "no octets but notes",
    "256 octets",
    "over 256 octets",
    "a digit too many",
    "a digit alone",
    "an octet in two words",
    "an octet in two lines",
    "no digit",
    "a note behind octets",
    "bad where it goes on",
    "a word where it goes on",
    "goes on with nothing",
    "a long line",
    "a long line that goes on",
];

/// What a long line may be.
pub const LONG: [&str; 5] = ["octets", "blanks", "a note", "a word", "noise"];

const LONGEST_LINE: usize = 16_384;

/// A bad record in this way; the number of the line on which it begins. "goes on with
/// nothing" is only so where no record was typed before.
pub fn add(c: &mut Chance, sheet: &mut Sheet, way: &str) -> usize {
    let word = c.pick(&["received", "sent"]);
    match way {
        "another word" => {
            let other = c.pick(&["other", "0", "1", "receive", "send", "-", "\0", "recieved"]);
            say(c, sheet, format!("{other} 41"))
        }
        "a word and more" => {
            let more = c.pick(&["s", ":", "#", "\0", "d", "_", "\x0B", "\x0C"]);
            say(c, sheet, format!("{word}{more} 41"))
        }
        "a part of a word" => {
            let length = c.range(1, word.len() - 1);
            say(c, sheet, format!("{} 41", &word[..length]))
        }
        "a word in capitals" => {
            let at = c.below(word.len());
            let mut line = format!("{word} 41").into_bytes();
            line[at] = line[at].to_ascii_uppercase();
            sheet.line(line)
        }
        "no word" => sheet.line(c.pick(&["41", "00", "0B3B", "4", "00 41"])),
        "octets at the word" => say(c, sheet, format!("{word}41 42")),
        "no octets" => say(c, sheet, word.to_string()),
        "no octets but notes" => {
            let number = sheet.line(word);
            sheet.line(c.pick(&["# 41", "", " # 41", " ", "\r", "#"]));
            number
        }
        "256 octets" => long_record(c, sheet, 256),
        "over 256 octets" => {
            let length = c.pick(&[257, 258, 300, 511, 512, 513, 1_000, 5_000]);
            long_record(c, sheet, length)
        }
        "a digit too many" => {
            let octets = c.pick(&["414", "41424", "41 424"]);
            say(c, sheet, format!("{word} {octets}"))
        }
        "a digit alone" => {
            let octets = c.pick(&["4", "4 41", "41 4", "41 4 42"]);
            say(c, sheet, format!("{word} {octets}"))
        }
        "an octet in two words" => {
            let octets = c.pick(&["4 1", "41 4 2", "4\t1 42", "4\r1"]);
            say(c, sheet, format!("{word} {octets}"))
        }
        "an octet in two lines" => {
            let number = sheet.line(format!("{word} {}", c.pick(&["4", "41 4", "414"])));
            sheet.line(c.pick(&[" 1", "\t1", "  1 42", " 142"]));
            number
        }
        "no digit" => {
            let digit = c.pick(b"gG/:@`xZ.,;-+_\0\x7F\x80\xFF\x0B\x0C\"");
            let line = match c.flip() {
                true => [word.as_bytes(), b" 4", &[digit]].concat(),
                false => [word.as_bytes(), b" 41", &[digit], b"1"].concat(),
            };
            sheet.line(line)
        }
        "a note behind octets" => {
            let between = c.pick(&["", " ", "\t"]);
            say(c, sheet, format!("{word} 41{between}# 42"))
        }
        "bad where it goes on" => {
            let number = sheet.line(format!("{word} 41"));
            sheet.passed_over(c);
            sheet.line(c.pick(&[" 4G", " 4", " 4 2", " 42 x", "\t-", " 42,", " 42 # 43"]));
            number
        }
        "a word where it goes on" => {
            let number = sheet.line(format!("{word} 41"));
            sheet.line(c.pick(&[" sent 42", " received 42", "\rsent 42", "\treceived"]));
            number
        }
        "goes on with nothing" => {
            assert!(sheet.records.is_empty(), "a record to go on with");
            sheet.line(c.pick(&[" 41", "\t41 42", "\r41", " received 41", " x", " 4"]))
        }
        "a long line" => {
            let kind = c.pick(&LONG);
            let line = long_line(c, kind, false);
            sheet.line(line)
        }
        "a long line that goes on" => {
            let kind = c.pick(&LONG);
            let line = long_line(c, kind, true);
            sheet.line(line)
        }
        _ => panic!("no such way: {way}"),
    }
}

/// One line, perhaps with blanks behind.
fn say(c: &mut Chance, sheet: &mut Sheet, text: String) -> usize {
    sheet.line([text.into_bytes(), blanks(c, 0)].concat())
}

/// Of so many octets, on one line or on several.
fn long_record(c: &mut Chance, sheet: &mut Sheet, length: usize) -> usize {
    let direction = c.below(2) as u8;
    let message = c.octets(length);
    sheet.write(c, &Record { direction, message })
}

/// A little over the longest, or far over.
fn long_line(c: &mut Chance, kind: &str, goes_on: bool) -> Vec<u8> {
    let length = LONGEST_LINE + c.pick(&[1, 1, 2, 100, 16_384, 70_000]);
    line_of(c, kind, goes_on, length)
}

/// A line of just so many octets.
pub fn line_of(c: &mut Chance, kind: &str, goes_on: bool, length: usize) -> Vec<u8> {
    let first: &[u8] = match (goes_on, kind) {
        (true, _) => b" ",
        (false, "octets") => b"sent ",
        (false, _) => b"",
    };
    let left = length - first.len();
    let rest = match kind {
        // One octet, and blanks up to the length.
        "octets" => [b"41".to_vec(), vec![b' '; left - 2]].concat(),
        "blanks" => vec![c.pick(&[b' ', b'\t', b'\r']); left],
        "a note" => [b"#".to_vec(), vec![b'x'; left - 1]].concat(),
        "a word" => vec![b'x'; left],
        "noise" => c
            .octets(left)
            .into_iter()
            .map(|octet| octet | 0x80)
            .collect(),
        _ => panic!("no such line: {kind}"),
    };
    [first, &rest].concat()
}

/// A few sound records, with lines between them that are passed over.
pub fn some_records(c: &mut Chance, sheet: &mut Sheet, most: usize) {
    sheet.passed_over(c);
    for _ in 0..c.below(most + 1) {
        let record = blocks::record(c);
        sheet.record(c, &record);
        sheet.passed_over(c);
    }
}
