//! Messages by chance, near the state of the table: sound, damaged, noise.

use crate::call::Named;
use crate::chance::Chance;
use crate::components::facility;
use crate::tables::{self, open_one, CLOSED};

/// A message of any length up to 300: sound, damaged or noise.
pub fn message(c: &mut Chance, image: &[u8]) -> Vec<u8> {
    match c.below(40) {
        0 => noise(c),
        1 => noise_with_head(c, image),
        2 => {
            let sound = structured(c, image);
            padded(c, sound)
        }
        3..=10 => {
            let sound = structured(c, image);
            damaged(c, sound)
        }
        _ => structured(c, image),
    }
}

fn noise(c: &mut Chance) -> Vec<u8> {
    let longest = c.pick(&[3, 12, 40, 300]);
    let count = c.below(longest + 1);
    c.octets(count)
}

fn noise_with_head(c: &mut Chance, image: &[u8]) -> Vec<u8> {
    let (flag, value) = transaction(c, image);
    let kind = kind(c, true, flag);
    let longest = c.pick(&[3, 12, 40, 253]);
    let count = c.below(longest + 1);
    [vec![head(flag, value), kind], c.octets(count)].concat()
}

fn head(flag: u8, value: u8) -> u8 {
    flag << 7 | value << 4 | 0x0B
}

/// An open one by preference, else one that the network may begin; value 7 and
/// any other now and then.
fn transaction(c: &mut Chance, image: &[u8]) -> Named {
    match c.below(50) {
        0 => (c.below(2) as u8, 7),
        1..=3 => (c.below(2) as u8, c.below(7) as u8),
        4..=9 => (0, c.below(7) as u8),
        _ => open_one(c, image, 0).unwrap_or((0, c.below(7) as u8)),
    }
}

fn kind(c: &mut Chance, is_open: bool, flag: u8) -> u8 {
    const R: u8 = 0x2A;
    const F: u8 = 0x3A;
    const G: u8 = 0x3B;
    match (is_open, flag) {
        _ if c.one_in(60) => c.octet(),
        (true, _) if c.one_in(6) => c.pick(&[R, R, G]),
        (true, _) => F,
        (false, 0) if c.one_in(5) => c.pick(&[F, R]),
        (false, 0) => G,
        (false, _) => c.pick(&[G, F, R]),
    }
}

/// A message by the layout of its type.
fn structured(c: &mut Chance, image: &[u8]) -> Vec<u8> {
    let (flag, value) = transaction(c, image);
    let entry = match value {
        7 => CLOSED,
        _ => tables::entry(image, flag, value),
    };
    let kind = kind(c, entry[0] != 0, flag);
    let facility = facility(c, &entry);
    let length = facility.len().min(255) as u8;
    let mut message = vec![head(flag, value), kind];
    match kind {
        0x3A => message.extend([&[length], &facility[..]].concat()),
        0x2A => {
            message.extend(informations(c, 6));
            if !c.one_in(5) {
                message.extend([&[0x1C, length], &facility[..]].concat());
            }
        }
        _ => message.extend([&[0x1C, length], &facility[..]].concat()),
    }
    message.extend(informations(c, 4));
    if c.one_in(60) {
        message[0] = c.octet();
    }
    message.truncate(300);
    message
}

/// Mostly none; else information elements, the last perhaps cut.
fn informations(c: &mut Chance, share: usize) -> Vec<u8> {
    let mut octets = Vec::new();
    if !c.one_in(share) {
        return octets;
    }
    for _ in 0..c.range(1, 4) {
        octets.extend(information(c));
    }
    if c.one_in(4) {
        let left = c.below(octets.len() + 1);
        octets.truncate(left);
    }
    octets
}

fn information(c: &mut Chance) -> Vec<u8> {
    let identifier = match c.below(8) {
        0 => c.below(16) as u8,
        1 => 0x08,
        2 => 0x1C,
        3 => 0x80 | c.octet(),
        _ => c.range(0x10, 0xFF) as u8,
    };
    if identifier >= 0x80 {
        return vec![identifier];
    }
    let length = c.below(6);
    [vec![identifier, length as u8], c.octets(length)].concat()
}

/// A further element so that the message ends near 255 octets.
fn padded(c: &mut Chance, mut message: Vec<u8>) -> Vec<u8> {
    let total = c.pick(&[254, 255, 256, 257, 300]);
    if message.len() + 2 <= total {
        let left = total - message.len() - 2;
        message.extend([0x7F, left.min(255) as u8]);
        message.extend(vec![0x00; left]);
    }
    message
}

/// One to three octets changed, put in, taken out, cut off.
fn damaged(c: &mut Chance, mut message: Vec<u8>) -> Vec<u8> {
    for _ in 0..c.range(1, 3) {
        let at = c.below(message.len() + 1);
        if at == message.len() {
            message.push(c.octet());
            continue;
        }
        match c.below(8) {
            0 => message.insert(at, c.octet()),
            1 => drop(message.remove(at)),
            2 => message.truncate(at),
            3 => message[at] ^= 1 << c.below(8),
            4 => message[at] = message[at].wrapping_add(1),
            5 => message[at] = message[at].wrapping_sub(1),
            6 => {
                message[at] = c.pick(&[
                    0x00, 0x01, 0x02, 0x05, 0x30, 0x7F, 0x80, 0x81, 0x82, 0x83, 0xA4, 0xFF,
                ])
            }
            _ => message[at] = c.octet(),
        }
    }
    message.truncate(300);
    message
}
