//! Blocks that are begun: every number of a bit, of an octet, and by chance, whatever
//! stood there.

use super::{compare, Asked};
use crate::blocks;
use crate::chance::Chance;
use second::trace::block::BLOCK;

const TIMES: u64 = 20_000;

fn begun(before: &[u8], number: u32) {
    let facts = compare(before, Asked::Begin(number));
    assert!(facts.is_added());
    let octets = number.to_be_bytes();
    let sum: u16 = octets.iter().map(|octet| u16::from(*octet)).sum();
    assert_eq!(facts.block[..4], octets);
    assert_eq!(facts.block[4..510], [0; 506]);
    assert_eq!(facts.block[510..], sum.to_be_bytes());
}

#[test]
fn each_bit_and_octet() {
    for before in [[0x00; BLOCK], [0xA5; BLOCK], [0xFF; BLOCK]] {
        for at in 0..32 {
            begun(&before, 1 << at);
            begun(&before, !(1 << at));
        }
        for octet in 0..=255 {
            for number in [octet, octet << 8, octet << 16, octet << 24] {
                begun(&before, number);
            }
        }
    }
}

#[test]
fn by_chance() {
    for time in 0..TIMES {
        let mut c = Chance::new(11_000_000 + time);
        let number = blocks::number(&mut c);
        let before = match c.flip() {
            true => blocks::sound(&mut c, 0),
            false => c.octets(BLOCK),
        };
        begun(&before, number);
    }
}
