//! Every length of septets from 0 to 200, there and back.

use super::{compare, Asked};
use crate::chance::Chance;
use crate::texts;
use second::alphabet::characters;
use second::septets::{pack, send, CR};

const LONGEST: usize = 200;
/// Rows by chance of each length.
const BY_CHANCE: usize = 12;

/// What fills a row, and what stands at its end.
const FILLS: [u8; 6] = [0x41, 0x00, 0x0D, 0x1B, 0x20, 0x7F];
const ENDS: [&[u8]; 12] = [
    &[],
    &[0x0D],
    &[0x0D, 0x0D],
    &[0x0D, 0x0D, 0x0D],
    &[0x1B],
    &[0x1B, 0x1B],
    &[0x1B, 0x1B, 0x1B],
    &[0x1B, 0x0D],
    &[0x1B, 0x1B, 0x0D],
    &[0x00],
    &[0x0D, 0x00],
    &[0x20],
];

#[test]
fn fills_and_ends() {
    for length in 0..=LONGEST {
        for fill in FILLS {
            for end in ENDS.iter().filter(|end| end.len() <= length) {
                let row = [vec![fill; length - end.len()], end.to_vec()].concat();
                there_and_back(&row);
            }
        }
    }
}

#[test]
fn by_chance() {
    let mut c = Chance::new(61);
    for length in 0..=LONGEST {
        for _ in 0..BY_CHANCE {
            there_and_back(&texts::row_of(&mut c, length));
            let any = c.octets(length).into_iter().map(|octet| octet & 0x7F);
            there_and_back(&any.collect::<Vec<u8>>());
        }
    }
}

fn there_and_back(row: &[u8]) {
    let ends_with_cr = row.len().is_multiple_of(8) && row.last() == Some(&CR);
    let has_spare_bits = row.len() % 8 == 7;

    // A sender's own CR is gone; the one behind a wanted CR stays.
    let sent = send(row);
    assert_eq!(
        sent.len(),
        least_octets(row.len() + usize::from(ends_with_cr))
    );
    let mut shown = characters(row);
    shown.extend(ends_with_cr.then_some(u16::from(CR)));
    assert_eq!(compare(&Asked::of(&sent)).text(), shown);

    // Without a sender's CR, a wanted one is taken for it, and seven zero bits are @.
    let raw = pack(row);
    assert_eq!(raw.len(), least_octets(row.len()));
    let mut read = row.to_vec();
    if ends_with_cr {
        read.pop();
    }
    read.extend(has_spare_bits.then_some(0x00));
    assert_eq!(compare(&Asked::of(&raw)).text(), characters(&read));
}

fn least_octets(septets: usize) -> usize {
    (7 * septets).div_ceil(8)
}
