//! Lines of the lengths at which something changes, and records over many lines.

use crate::bad_lines::{line_of, LONG};
use crate::chance::Chance;
use crate::program::{READER, WRITER};
use crate::sheet::Sheet;
use second::trace::block::BLOCK;
use second::trace::record::Record;

const LENGTHS: [usize; 6] = [16_383, 16_384, 16_385, 16_386, 65_536, 1_000_000];

/// Each kind of line behind a record, alone, with and without its line feed.
#[test]
fn long_lines() {
    let mut c = Chance::new(41);
    let mut refused_at = [0; 3];
    for length in LENGTHS {
        for kind in LONG {
            for goes_on in [false, true] {
                let line = line_of(&mut c, kind, goes_on, length);
                assert_eq!(line.len(), length);
                for (before, behind) in [
                    ("received 40\n", "\nsent 43\n"),
                    ("received 40\n", "\n 43\n"),
                    ("received 40\n", ""),
                    ("", "\nsent 43\n"),
                ] {
                    let input = [before.as_bytes(), &line, behind.as_bytes()].concat();
                    let error = WRITER.compare(&input).error;
                    match &error[..] {
                        b"" => refused_at[0] += 1,
                        b"line 1 refused 35\n" => refused_at[1] += 1,
                        b"line 2 refused 35\n" => refused_at[2] += 1,
                        _ => panic!("another line"),
                    }
                }
            }
        }
    }
    println!("{refused_at:?}");
    assert!(refused_at.iter().all(|times| *times > 10));
}

/// A line that is too long is a record of its own: one before it that was sound is
/// written, one that was bad is the first.
#[test]
fn long_line_behind_records() {
    let long = " ".repeat(16_385);
    for (before, line) in [
        ("", 1),
        ("\n\n", 3),
        ("sent 41\n", 2),
        ("sent\n", 1),
        ("sent\n 41\n", 3),
        ("sent 41\n 4\n", 1),
        ("sent 41\nsent\n# x\n", 2),
    ] {
        for behind in ["", "\n", "\n 42\n", "\nsent 42\n"] {
            let printed = WRITER.compare(format!("{before}{long}{behind}").as_bytes());
            let wanted = format!("line {line} refused 35\n");
            assert_eq!(printed.error, wanted.into_bytes());
            let is_written = before.starts_with("sent") && line > 1;
            assert_eq!(printed.output.len(), if is_written { BLOCK } else { 0 });
        }
    }
}

/// Each count of octets, on one line and one octet a line.
#[test]
fn octets_of_a_record() {
    for count in (1..=255)
        .step_by(23)
        .chain([253, 254, 255, 256, 257, 258, 4_000, 70_000])
    {
        for between in ["", " ", "\n ", "\r\n\t", "\n# x\n ", "\n\n "] {
            let octets = vec!["0b"; count].join(between);
            // No line is too long.
            if octets.split('\n').any(|line| line.len() > 16_000) {
                continue;
            }
            let printed = WRITER.compare(format!("sent 41\nreceived {octets}\nsent 42").as_bytes());
            let wanted = match count {
                1..=255 => "",
                _ => "line 2 refused 35\n",
            };
            assert_eq!(printed.error, wanted.as_bytes());
        }
    }
}

/// Line numbers of several digits.
#[test]
fn many_lines() {
    for count in [
        8, 9, 98, 99, 998, 999, 9_999, 65_534, 65_535, 65_536, 100_000,
    ] {
        for line in ["", "#", " ", "sent 41"] {
            let before = format!("{line}\n").repeat(count);
            let printed = WRITER.compare((before + "x 41\n").as_bytes());
            let wanted = format!("line {} refused 35\n", count + 1);
            assert_eq!(printed.error, wanted.into_bytes());
        }
    }
}

/// Many records of every length, there and back.
#[test]
fn many_records() {
    let mut c = Chance::new(42);
    let mut sheet = Sheet::default();
    for _ in 0..4 {
        for length in 1..=255 {
            let direction = c.below(2) as u8;
            let message = c.octets(length);
            sheet.record(&mut c, &Record { direction, message });
        }
    }
    let file = WRITER.compare(&sheet.input);
    assert!(file.error.is_empty());
    let read = READER.compare(&file.output);
    assert!(WRITER.compare(&read.output) == file);
}
