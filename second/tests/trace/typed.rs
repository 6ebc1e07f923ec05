//! Lines by chance for the writer, sound and bad: what it writes is known beforehand.

use crate::bad_lines::{add, some_records, WAYS};
use crate::chance::Chance;
use crate::count::Count;
use crate::program::WRITER;
use crate::sheet::Sheet;
use second::trace::block::BLOCK;
use second::trace::file;
use second::trace::programs::Printed;

const SHEETS: u64 = 300;
/// Sheets for each way in which a record is bad.
const EACH_WAY: u64 = 30;
const NOISE: u64 = 300;

/// The writer writes these records, and then perhaps a refusal.
fn writes(sheet: &Sheet, bad: Option<usize>) -> Printed {
    let printed = WRITER.compare(&sheet.input);
    assert!(
        printed.output == file::write(&sheet.records).file,
        "another file"
    );
    let refused = bad.map(|line| format!("line {line} refused 35\n"));
    assert_eq!(printed.error, refused.unwrap_or_default().into_bytes());
    printed
}

#[test]
fn sound() {
    let mut blocks = 0;
    for time in 0..SHEETS {
        let mut c = Chance::new(31_000_000 + time);
        let mut sheet = Sheet::default();
        let most = c.pick(&[0, 1, 5, 40]);
        some_records(&mut c, &mut sheet, most);
        if c.flip() {
            sheet.cut_line_feed();
        }
        blocks += writes(&sheet, None).output.len() / BLOCK;
    }
    assert!(blocks > SHEETS as usize, "files of several blocks");
}

/// Sound records, a bad one, and others behind it that aren't written.
#[test]
fn bad() {
    let mut count = Count::default();
    for way in WAYS {
        for time in 0..EACH_WAY {
            let mut c = Chance::new(32_000_000 + time);
            let mut sheet = Sheet::default();
            let most = match way {
                "goes on with nothing" => 0,
                _ => c.pick(&[0, 2, 10]),
            };
            some_records(&mut c, &mut sheet, most);
            let line = add(&mut c, &mut sheet, way);
            let records = sheet.records.clone();
            match c.below(4) {
                0 => (),
                1 => sheet.cut_line_feed(),
                2 => some_records(&mut c, &mut sheet, 3),
                _ => {
                    sheet.records.clear();
                    let other = c.pick(&WAYS);
                    add(&mut c, &mut sheet, other);
                }
            }
            sheet.records = records;
            // Behind no octets, a line that goes on makes a sound record, or a bad one
            // that begins on the same line.
            let printed = match way.starts_with("no octets") {
                true => WRITER.compare(&sheet.input),
                false => writes(&sheet, Some(line)),
            };
            if printed.error == format!("line {line} refused 35\n").into_bytes() {
                count.add(way);
            }
        }
    }
    count.check(EACH_WAY / 2, &WAYS);
}

/// Noise of what lines are made of, so that many are read by half.
#[test]
fn noise() {
    const PIECES: [&str; 24] = [
        "received ",
        "received ",
        "sent ",
        "sent ",
        "received",
        "sent",
        "41",
        "0b",
        "FF",
        "41 42",
        "00",
        " ",
        " ",
        "\t",
        "\r",
        "#",
        "\n",
        "\n",
        "\n",
        "\n ",
        "\n ",
        "\n#",
        "4",
        "x",
    ];
    let mut count = Count::default();
    for time in 0..NOISE {
        let mut c = Chance::new(33_000_000 + time);
        // What spoils a record is rare in some.
        let pieces = &PIECES[..c.pick(&[PIECES.len(), PIECES.len() - 2])];
        let mut input = b"sent 41".to_vec();
        for _ in 0..c.below(60) {
            input.extend(c.pick(pieces).as_bytes());
        }
        let printed = WRITER.compare(&input);
        match (printed.output.is_empty(), printed.error.is_empty()) {
            (_, true) => count.add("taken"),
            (false, false) => count.add("refused behind records"),
            (true, false) => count.add("refused at once"),
        }
    }
    for octets in [0, 1, 100, 10_000] {
        WRITER.compare(&Chance::new(34).octets(octets));
        WRITER.compare(&vec![0; octets]);
    }
    count.check(5, &["taken", "refused behind records", "refused at once"]);
}
