//! Parameters by chance: of the kind that suits, of another, of none.

use crate::chance::Chance;

/// An element of these contents, its length in any form that can be read.
pub fn element(c: &mut Chance, tag: u8, contents: &[u8]) -> Vec<u8> {
    [vec![tag], length(c, contents.len()), contents.to_vec()].concat()
}

pub fn length(c: &mut Chance, count: usize) -> Vec<u8> {
    let [.., high, low] = count.to_be_bytes();
    match c.below(16) {
        0 => vec![0x82, high, low],
        1 if high == 0 => vec![0x81, low],
        _ => shortest(count),
    }
}

pub fn shortest(count: usize) -> Vec<u8> {
    let [.., high, low] = count.to_be_bytes();
    match count {
        0..=0x7F => vec![low],
        0x80..=0xFF => vec![0x81, low],
        _ => vec![0x82, high, low],
    }
}

/// A tag that isn't refused.
pub fn tag(c: &mut Chance) -> u8 {
    let tag = match c.below(3) {
        0 => c.pick(&[
            0x02, 0x04, 0x05, 0x0A, 0x12, 0x30, 0x80, 0x82, 0x83, 0xA1, 0xA2,
        ]),
        _ => c.octet(),
    };
    match tag {
        0x00 => 0x04,
        _ if tag & 0x1F == 0x1F => tag ^ 0x01,
        _ => tag,
    }
}

/// A row of well-formed elements.
pub fn row(c: &mut Chance, count: usize, longest: usize) -> Vec<u8> {
    let mut octets = Vec::new();
    for _ in 0..count {
        let length = c.below(longest + 1);
        let contents = c.octets(length);
        let tag = tag(c);
        octets.extend(element(c, tag, &contents));
    }
    octets
}

/// Mostly nothing; else elements; now and then no elements at all.
fn tail(c: &mut Chance) -> Vec<u8> {
    match c.below(20) {
        0..=11 => Vec::new(),
        12..=16 => {
            let count = c.range(1, 3);
            row(c, count, 8)
        }
        17 => row(c, 1, 230),
        _ => {
            let count = c.range(1, 4);
            c.octets(count)
        }
    }
}

/// A string of 1 to 160 octets, short or long.
pub fn string_length(c: &mut Chance) -> usize {
    match c.below(10) {
        0..=6 => c.range(1, 8),
        7 => c.range(100, 160),
        8 => c.pick(&[1, 2, 120, 126, 127, 128, 159, 160]),
        _ => c.range(1, 160),
    }
}

/// USSD-Arg or USSD-Res, most of the time.
pub fn ussd(c: &mut Chance) -> Vec<u8> {
    let length = match c.below(25) {
        0 => c.pick(&[0, 161, 162]),
        _ => string_length(c),
    };
    let scheme = scheme(c);
    let string = c.octets(length);
    let mut contents = element(c, 0x04, &scheme);
    contents.extend(element(c, 0x04, &string));
    contents.extend(tail(c));
    element(c, 0x30, &contents)
}

/// The one whose texts are laid out, or any; now and then none.
fn scheme(c: &mut Chance) -> Vec<u8> {
    match c.below(40) {
        0 => Vec::new(),
        1..=19 => vec![0x0F],
        _ => c.octets(1),
    }
}

pub fn ss_for_bs(c: &mut Chance) -> Vec<u8> {
    let length = usize::from(!c.one_in(20));
    let code = c.octets(length);
    let mut contents = element(c, 0x04, &code);
    if c.flip() {
        let tag = c.pick(&[0x82, 0x83]);
        let length = c.pick(&[1, 1, 1, 1, 1, 0, 2]);
        let service = c.octets(length);
        contents.extend(element(c, tag, &service));
    }
    contents.extend(tail(c));
    element(c, 0x30, &contents)
}

pub fn guidance(c: &mut Chance) -> Vec<u8> {
    let value = c.pick(&[0, 1, 2, 0, 1, 2, 3, 255]);
    element(c, 0x0A, &[value])
}

/// Four digits in every other; else nearly that, or three or five digits.
pub fn password(c: &mut Chance) -> Vec<u8> {
    let count = match c.below(10) {
        0..=4 => 4,
        5..=8 => return near_password(c),
        _ => c.pick(&[3, 5]),
    };
    let digits = digits(c, count);
    element(c, 0x12, &digits)
}

/// Octets that are nearly digits.
const NO_DIGITS: [u8; 6] = [0x20, 0x29, 0x2F, 0x3A, 0x40, 0xB0];

/// Four octets, one of them no digit, at any place; now and then all four, as from a
/// stuck key.
pub fn near_password(c: &mut Chance) -> Vec<u8> {
    let octet = match c.one_in(7) {
        true => c.octet(),
        false => c.pick(&NO_DIGITS),
    };
    let mut octets = digits(c, 4);
    match c.one_in(8) {
        true => octets.fill(octet),
        false => octets[c.below(4)] = octet,
    }
    element(c, 0x12, &octets)
}

fn digits(c: &mut Chance, count: usize) -> Vec<u8> {
    (0..count).map(|_| c.pick(b"0123456789")).collect()
}

pub fn service_code(c: &mut Chance) -> Vec<u8> {
    let length = c.pick(&[1, 1, 1, 1, 1, 1, 0, 2]);
    let code = c.octets(length);
    element(c, 0x04, &code)
}

/// One element of any tag, short or long; now and then a Password, or nearly one.
pub fn any(c: &mut Chance) -> Vec<u8> {
    let longest = c.pick(&[0, 3, 8, 8, 20, 140]);
    match c.below(8) {
        0 => {
            let length = c.range(225, 250);
            let tag = tag(c);
            element(c, tag, &vec![0x55; length])
        }
        1 => password(c),
        _ => row(c, 1, longest),
    }
}

/// A parameter of the kind an Invoke of the operation takes, mostly.
pub fn of_invoke(c: &mut Chance, operation: u8) -> Vec<u8> {
    match operation {
        _ if c.one_in(12) => unsuited(c),
        11..=14 => ss_for_bs(c),
        17 => service_code(c),
        18 => guidance(c),
        38 => Vec::new(),
        59..=61 => ussd(c),
        _ => any(c),
    }
}

/// A parameter of the kind a result of the operation takes, mostly.
pub fn of_result(c: &mut Chance, operation: u8) -> Vec<u8> {
    match operation {
        _ if c.one_in(10) => unsuited(c),
        17 | 18 => password(c),
        59 | 60 if c.one_in(4) => Vec::new(),
        59 | 60 => ussd(c),
        61 => Vec::new(),
        _ if c.one_in(4) => Vec::new(),
        _ => any(c),
    }
}

/// A parameter of an error.
pub fn of_error(c: &mut Chance) -> Vec<u8> {
    match c.below(10) {
        0..=4 => Vec::new(),
        5 => unsuited(c),
        _ => any(c),
    }
}

fn unsuited(c: &mut Chance) -> Vec<u8> {
    match c.below(9) {
        0 => ussd(c),
        1 => ss_for_bs(c),
        2 => guidance(c),
        3 => password(c),
        4 => service_code(c),
        5 => any(c),
        6 => {
            let count = c.below(12);
            c.octets(count)
        }
        7 => row(c, 2, 6),
        _ => Vec::new(),
    }
}
