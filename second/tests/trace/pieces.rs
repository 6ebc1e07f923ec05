//! Inputs in small pieces: "A read may give less than was asked for (a pipe does) and is
//! no end."

use crate::bad_lines::some_records;
use crate::chance::Chance;
use crate::files;
use crate::program::{Program, READER, SALVAGE, WRITER};
use crate::sheet::Sheet;
use std::io::Write;
use std::time::Duration;

const FILES: u64 = 12;
/// About so many pieces of an input.
const PIECES: usize = 30;
/// Long enough for the program to take a piece alone, as a rule.
const PAUSE: Duration = Duration::from_micros(500);

fn compare(c: &mut Chance, program: &Program, input: &[u8]) {
    let mut pieces = Vec::new();
    let mut rest = input;
    while !rest.is_empty() {
        let most = 2 * input.len() / PIECES + 2;
        let (piece, behind) = rest.split_at(c.range(1, most).min(rest.len()));
        pieces.push(piece);
        rest = behind;
    }
    program.compare_fed(input, |sink| {
        for piece in pieces {
            sink.write_all(piece)?;
            sink.flush()?;
            std::thread::sleep(PAUSE);
        }
        Ok(())
    });
}

#[test]
fn files_in_pieces() {
    for time in 0..FILES {
        let mut c = Chance::new(51_000_000 + time);
        let whole = files::whole(&mut c).concat();
        let broken = files::broken(&mut c);
        for file in [whole, broken] {
            compare(&mut c, &READER, &file);
            compare(&mut c, &SALVAGE, &file);
        }
    }
}

#[test]
fn lines_in_pieces() {
    for time in 0..FILES {
        let mut c = Chance::new(52_000_000 + time);
        let mut sheet = Sheet::default();
        some_records(&mut c, &mut sheet, 12);
        if c.flip() {
            sheet.line("x");
        }
        compare(&mut c, &WRITER, &sheet.input);
    }
}

/// Octet by octet.
#[test]
fn single_octets() {
    let lines = b"sent 41\n# x\n 42\r\nreceived 4\n".to_vec();
    let one_by_one = |program: Program, input: &[u8]| {
        program.compare_fed(input, |sink| {
            for octet in input {
                sink.write_all(&[*octet])?;
                std::thread::sleep(Duration::from_micros(100));
            }
            Ok(())
        });
    };
    one_by_one(WRITER, &lines);
    let file = [&[0; 512][..], &[1; 88]].concat();
    one_by_one(READER, &file);
    one_by_one(SALVAGE, &file);
}
