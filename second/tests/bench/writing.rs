//! Calls as lines, in any writing that is understood, and lines that aren't.

use crate::call::Call;
use crate::chance::Chance;

/// What is no newline and stands between words.
pub const BLANKS: [u8; 3] = [b' ', b'\t', b'\r'];

pub fn line(c: &mut Chance, call: &Call) -> Vec<u8> {
    let (words, octets) = match call {
        Call::Receive(message) => (vec!["receive".to_string()], &message[..]),
        Call::Begin(operation, id, p) => {
            let words = vec!["begin".to_string(), octet(c, *operation), signed(c, *id)];
            (words, &p[..])
        }
        Call::Invoke(named, operation, id, p) => {
            let mut words = within(c, "invoke", *named);
            words.extend([octet(c, *operation), signed(c, *id)]);
            (words, &p[..])
        }
        Call::Result(named, id, p) => {
            let mut words = within(c, "result", *named);
            words.push(signed(c, *id));
            (words, &p[..])
        }
        Call::Error(named, id, code, p) => {
            let mut words = within(c, "error", *named);
            words.extend([signed(c, *id), octet(c, *code)]);
            (words, &p[..])
        }
        Call::Release(named) => (within(c, "release", *named), &[][..]),
    };
    with_octets(c, &words, octets)
}

/// Records as a line.
pub fn batch(c: &mut Chance, records: &[u8]) -> Vec<u8> {
    with_octets(c, &["batch".to_string()], records)
}

/// These words, and octets behind them.
pub fn with_octets(c: &mut Chance, words: &[String], octets: &[u8]) -> Vec<u8> {
    let plain = !c.one_in(8);
    let mut words: Vec<Vec<u8>> = words.iter().map(|w| w.clone().into_bytes()).collect();
    words.extend(pairs(c, octets));
    let mut line = Vec::new();
    if !plain {
        line.extend(blanks(c, 0));
    }
    for (place, word) in words.iter().enumerate() {
        match (place, plain) {
            (0, _) => (),
            (_, true) => line.push(b' '),
            (_, false) => line.extend(blanks(c, 1)),
        }
        line.extend(word);
    }
    if !plain {
        line.extend(blanks(c, 0));
    }
    line
}

/// The octets as words: one, one for each, or now so and now so.
fn pairs(c: &mut Chance, octets: &[u8]) -> Vec<Vec<u8>> {
    let joins = c.pick(&[0, 1, 1, 2]);
    let letters = c.pick(&[0, 0, 1, 2]);
    let mut words: Vec<Vec<u8>> = Vec::new();
    for octet in octets {
        let pair = match letters {
            0 => format!("{octet:02X}"),
            1 => format!("{octet:02x}"),
            _ if c.flip() => format!("{octet:02X}"),
            _ => format!("{:x}{:X}", octet / 16, octet % 16),
        };
        let joined = match joins {
            0 => true,
            1 => false,
            _ => c.flip(),
        };
        match words.last_mut() {
            Some(word) if joined => word.extend(pair.into_bytes()),
            _ => words.push(pair.into_bytes()),
        }
    }
    words
}

pub fn blanks(c: &mut Chance, least: usize) -> Vec<u8> {
    let count = least + c.below(3);
    (0..count).map(|_| c.pick(&BLANKS)).collect()
}

fn within(c: &mut Chance, word: &str, (flag, value): (u8, u8)) -> Vec<String> {
    vec![word.to_string(), octet(c, flag), octet(c, value)]
}

pub fn octet(c: &mut Chance, octet: u8) -> String {
    zeros(c) + &octet.to_string()
}

fn signed(c: &mut Chance, id: i8) -> String {
    let digits = zeros(c) + &id.unsigned_abs().to_string();
    match id {
        0 if c.one_in(10) => "-".to_string() + &digits,
        0.. => digits,
        _ => "-".to_string() + &digits,
    }
}

fn zeros(c: &mut Chance) -> String {
    match c.one_in(20) {
        true => "0".repeat(c.range(1, 4)),
        false => String::new(),
    }
}

/// One octet put in, taken out or changed; the line may still be understood.
pub fn spoiled(c: &mut Chance, line: &[u8]) -> Vec<u8> {
    let mut line = line.to_vec();
    let octet = match c.below(3) {
        0 => c.pick(b" \t\r-+#.xgGZ0fF9\0\x0B\x0C\x7F\x80\xFF\n"),
        1 => c.range(0x20, 0x7E) as u8,
        _ => c.octet(),
    };
    let at = c.below(line.len() + 1);
    match c.below(3) {
        _ if at == line.len() => line.push(octet),
        0 => line.insert(at, octet),
        1 => drop(line.remove(at)),
        _ => line[at] = octet,
    }
    line
}
