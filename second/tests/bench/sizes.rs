//! Lines and inputs of the lengths at which something changes, and noise.

use crate::chance::Chance;
use crate::proved::compare;

const WITH_HEX: [&str; 7] = [
    "receive",
    "batch",
    "begin 59 1",
    "invoke 0 0 59 1",
    "result 0 0 5",
    "error 0 0 5 1",
    "table",
];

const NOISE: usize = 1_000_000;

/// These lines, each with its newline, between others that show what they did.
fn compare_lines(lines: &[Vec<u8>]) {
    let mut input = b"begin 59 1 300604010F040141\n".to_vec();
    for line in lines {
        input.extend(line);
        input.extend(b"\ntable\nreceive 0B3C\n");
    }
    compare(&input);
}

/// So many octets behind the words, with a blank behind the word alone or between
/// all pairs.
fn hexed(words: &str, count: usize, between: &str) -> String {
    words.to_string() + " " + &vec!["0b"; count].join(between)
}

#[test]
fn octets_in_a_line() {
    let mut lines = Vec::new();
    for words in WITH_HEX {
        for between in ["", " "] {
            for count in [
                237, 238, 239, 255, 256, 299, 300, 301, 4_095, 4_096, 4_097, 4_098,
            ] {
                let line = hexed(words, count, between);
                let behind = [
                    "", " ", "\r", "0", " 0", "Z", " Z", "0Z", "00Z", " 0 0", " #",
                ];
                lines.extend(behind.map(|more| format!("{line}{more}").into_bytes()));
            }
        }
        // All that fit, and too many with an early fault.
        lines.push(hexed(words, 5_400, " ").into_bytes());
        lines.push(hexed(words, 8_000, "").into_bytes());
        lines.push(hexed(&format!("{words} 0"), 5_000, "").into_bytes());
        lines.push(hexed(&format!("{words} 0Z"), 5_000, "").into_bytes());
        lines.push(hexed(&format!("{words}x"), 5_000, "").into_bytes());
    }
    for words in [
        "release 0 0",
        "release 0",
        "buffer 255",
        "buffer",
        "release",
        "begin 256 1",
        "begin 59 128",
        "begin 59",
        "invoke 0 0 256 1",
        "result 0 256 5",
        "error 0 0 5 256",
        "",
        "octets",
        "#",
    ] {
        lines.push(hexed(words, 4_096, "").into_bytes());
        lines.push(hexed(words, 4_097, "").into_bytes());
    }
    compare_lines(&lines);
}

/// Lines made up to a length by blanks, digits or other characters.
#[test]
fn octets_of_a_line() {
    let mut lines = Vec::new();
    for length in [16_383, 16_384, 16_385, 16_386, 20_000, 1_000_000] {
        let filled = |start: &str, fill: &str, end: &str| {
            let left = length - start.len() - end.len();
            let fill = fill.repeat(left).into_bytes();
            [start.as_bytes(), &fill, end.as_bytes()].concat()
        };
        lines.extend([
            filled("", " ", ""),
            filled("", "\t", ""),
            filled("", "\r", ""),
            filled("", "\0", ""),
            filled("", "x", ""),
            filled("#", "x", ""),
            filled("", " ", "#"),
            filled("# ", " ", ""),
            filled("table", " ", ""),
            filled("", " ", "table"),
            filled("receive ", " ", "0B3C"),
            filled("receive 0B3C", " ", ""),
            filled("receive 0B", "\r", "3C"),
            filled("", "\t", "receive 0B3C"),
            filled("receive ", "0", ""),
            filled("receive ", "Z", ""),
            filled("batch ", " ", "010B"),
            filled("batch ", "0", ""),
            filled("table ", "0", ""),
            filled("buffer ", "0", "12"),
            filled("buffer ", "0", "301"),
            filled("buffer ", "9", ""),
            filled("buffer 255", " ", ""),
            filled("buffer 255", " ", "x"),
            filled("begin ", "0", "59 1 300604010F040141"),
            filled("begin 59 -", "0", "1 300604010F040141"),
            filled("release 1 ", "0", ""),
            filled("release 1 0", " ", ""),
        ]);
    }
    compare_lines(&lines);
}

/// What stands behind the last newline.
#[test]
fn ends() {
    let longest = "x".repeat(16_384);
    let too_long = "x".repeat(16_385);
    let too_many = hexed("receive", 4_097, "");
    for end in [
        "",
        "table",
        "receive 0B3C",
        "receive 0B3",
        "receive",
        "release 0 0\r",
        "buffer 12",
        "# table",
        " ",
        "\r",
        "\0",
        "x",
        &longest,
        &too_long,
        &too_many,
    ] {
        for before in ["", "\n", "\r\n", "table\n", "buffer 5\n\n\n", "#\n", "x\n"] {
            compare(format!("{before}{end}").as_bytes());
        }
    }
}

#[test]
fn newlines() {
    for count in [0, 1, 2, 3, 1_000, NOISE] {
        let input = vec![b'\n'; count];
        compare(&input);
        compare(&[&input[..], b"x"].concat());
        compare(&[&input[..], b"table\n"].concat());
    }
}

#[test]
fn zeros_and_newlines() {
    let mut c = Chance::new(41);
    for share in [2, 100, 10_000] {
        let input = (0..100_000).map(|_| match c.one_in(share) {
            true => b'\n',
            false => 0,
        });
        compare(&input.collect::<Vec<u8>>());
    }
    compare(&vec![0; NOISE]);
    compare(&[0]);
}

#[test]
fn noise() {
    let mut c = Chance::new(42);
    compare(&c.octets(NOISE));
    // No newline by chance, so one long line.
    let octets = c.octets(NOISE).into_iter().map(|o| o | 0x80);
    compare(&octets.collect::<Vec<u8>>());
}

/// Noise of what lines are made of, so that many are understood by half.
#[test]
fn noise_of_words() {
    const PIECES: [&str; 31] = [
        "receive ", "batch ", "begin ", "invoke ", "result ", "error ", "release ", "table ",
        "buffer ", "0", "1", "5", "59", "255", "-", "0B", "3b", "1C", "A1", "30", "04", " ", " ",
        "\t", "\r", "#", "\n", "\n", "\n", "\n", "x",
    ];
    let mut c = Chance::new(43);
    let mut input = Vec::new();
    while input.len() < NOISE {
        input.extend(c.pick(&PIECES).as_bytes());
    }
    compare(&input);
}
