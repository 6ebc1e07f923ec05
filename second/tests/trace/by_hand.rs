//! What the programs print, as it stands in the readings.

use crate::notation::octets;
use crate::program::{Program, READER, SALVAGE, WRITER};
use crate::trace_notation::file;
use second::trace::block::{block, read_at, sum, NUMBER};
use second::trace::programs::Printed;

/// The program prints this, on standard output and standard error.
fn prints(program: Program, input: &[u8], output: &[u8], error: &str) {
    let wanted = Printed {
        output: output.to_vec(),
        error: error.as_bytes().to_vec(),
    };
    assert_eq!(program.compare(input), wanted);
}

/// Lines, the record octets of the one block or None for no block, standard error.
const LINES: [(&str, Option<&str>, &str); 10] = [
    ("received 0b3B\n 1C 00\n", Some("00040B3B1C00"), ""),
    (
        "sent 41\n# a note\n\n 42\nreceived 43\n",
        Some("01024142000143"),
        "",
    ),
    ("received\n 41\n", Some("000141"), ""),
    ("received\n", None, "line 1 refused 35\n"),
    ("# a note\n 41\n", None, "line 2 refused 35\n"),
    (
        "sent 41\nreceived 4 1\n",
        Some("010141"),
        "line 2 refused 35\n",
    ),
    ("sent 41\n 4G\nother 41\n", None, "line 1 refused 35\n"),
    (
        "received 41\nother 41\n",
        Some("000141"),
        "line 2 refused 35\n",
    ),
    ("", None, ""),
    ("# nothing\n", None, ""),
];

#[test]
fn lines() {
    for (lines, records, error) in LINES {
        let wanted = records.map(|records| block(0, &octets(records)));
        let wanted = wanted.unwrap_or_default();
        prints(WRITER, lines.as_bytes(), &wanted, error);
        // The last line without its line feed.
        let lines = lines.strip_suffix('\n').unwrap_or(lines);
        prints(WRITER, lines.as_bytes(), &wanted, error);
    }
}

const W1: &str = "0B3B1C10A10E02010502013C300604010F040141";
const W1_LINES: &str = "received 0B 3B 1C 10 A1 0E 02 01 05 02\n 01 3C 30 06 04 01 0F 04 01 41\n";

/// "one block: 00 00 00 00, 00 16, 00 14, the twenty octets of W1, 482 zeros, 02 22"
#[test]
fn w1() {
    let head = octets("00000000 0016 0014");
    let file = [head, octets(W1), vec![0; 482], octets("0222")].concat();
    prints(WRITER, W1_LINES.as_bytes(), &file, "");
    prints(READER, &file, W1_LINES.as_bytes(), "");
    prints(SALVAGE, &file, &file, "");
}

#[test]
fn refused() {
    let broken = file(&["0:000141", "1:000141:sum", "2:000141"]);
    prints(READER, &broken, b"received 41\nblock 1 refused 33\n", "");
}

#[test]
fn list() {
    let broken = file(&["0:", "1::sum", "2:", "+100"]);
    let mended = file(&["0:", "1:"]);
    let list = "number 1 dropped 33\nnumber 2 renumbered 36\nplace 3 dropped 32\n";
    prints(SALVAGE, &broken, &mended, list);
}

/// Sums that wrap.
#[test]
fn sums() {
    let line = |count: usize| format!("sent {}\n", "FF".repeat(count));
    let records = [
        vec![0x01, 255],
        vec![0xFF; 255],
        vec![0x01, 245],
        vec![0xFF; 245],
    ];
    let file = block(0, &records.concat());
    assert_eq!(file[510..], [0xF4, 0xFB]);
    prints(WRITER, (line(255) + &line(245)).as_bytes(), &file, "");
    assert_eq!(sum(&[0xFF; 512]), 0xFC02);
    prints(READER, &[0xFF; 512], b"block 0 refused 33\n", "");
    prints(SALVAGE, &[0xFF; 512], b"", "number 4294967295 dropped 33\n");
}

/// "block 0 at place 4,294,967,296 is 36, though its four octets would agree modulo"
#[test]
fn far_places() {
    let first = block(0, &[]);
    assert_eq!(read_at(&first, 0), Ok(Vec::new()));
    assert_eq!(read_at(&first, 4_294_967_296), Err(NUMBER));
    let last = block(4_294_967_295, &[]);
    assert_eq!(read_at(&last, 4_294_967_295), Ok(Vec::new()));
}

/// How many octets stand beside the word and in the lines below.
#[test]
fn widths() {
    for length in 1..=255 {
        let records = [
            vec![0x00, length],
            vec![0x5A; length.into()],
            vec![0x01, length.min(245)],
            vec![0xA5; length.min(245).into()],
        ];
        let printed = READER.compare(&block(0, &records.concat()));
        let text = String::from_utf8(printed.output).expect("ASCII");
        let rows = text.lines().map(|line| line.split(' ').count() - 1);
        let rows: Vec<usize> = rows.collect();
        let wanted = [row(10, length.into()), row(12, length.min(245).into())];
        assert_eq!(rows, wanted.concat());
    }
}

/// So many beside the word, then thirteen in each line.
fn row(beside: usize, octets: usize) -> Vec<usize> {
    let mut row = vec![octets.min(beside)];
    let mut left = octets - row[0];
    while left > 0 {
        row.push(left.min(13));
        left -= left.min(13);
    }
    row
}
