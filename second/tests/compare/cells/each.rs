//! Every septet alone and behind an escape, at each place in an octet and near the end
//! of a line.

use super::{compare, Asked};
use second::alphabet::ESCAPE;
use second::septets::{pack, send};

/// The default alphabet as it looks, line by line of its table.
const SEEN: [&str; 8] = [
    "@£$¥èéùìòÇ\nØø\rÅå",
    "Δ_ΦΓΛΩΠΨΣΘΞ\u{1B}ÆæßÉ",
    " !\"#¤%&'()*+,-./",
    "0123456789:;<=>?",
    "¡ABCDEFGHIJKLMNO",
    "PQRSTUVWXYZÄÖÑÜ§",
    "¿abcdefghijklmno",
    "pqrstuvwxyzäöñüà",
];

/// What an escape makes of these, by how they look without it.
const EXTENDED: [(char, char); 11] = [
    ('\n', '\u{C}'),
    ('Λ', '^'),
    ('\u{1B}', ' '),
    ('(', '{'),
    (')', '}'),
    ('/', '\\'),
    ('<', '['),
    ('=', '~'),
    ('>', ']'),
    ('¡', '|'),
    ('e', '€'),
];

fn seen(septet: u8) -> char {
    let row = SEEN[usize::from(septet / 16)].chars();
    row.clone().nth(usize::from(septet % 16)).expect("sixteen")
}

fn seen_escaped(code: u8) -> char {
    let plain = seen(code);
    let mut changed = EXTENDED.iter().filter(|(from, _)| *from == plain);
    changed.next().map_or(plain, |(_, to)| *to)
}

/// The row, packed both ways; what a sender packs is seen as this text.
fn both_ways(row: &[u8], text: Option<&str>) {
    let sent = compare(&Asked::of(&send(row)));
    compare(&Asked::of(&pack(row)));
    if let Some(text) = text {
        let seen = String::from_utf16(sent.text()).expect("no surrogates");
        assert_eq!(seen, text);
    }
}

/// This one with so many A before and so many B behind.
fn within(one: &[u8], seen: Option<char>, before: usize, behind: usize) {
    let row = [vec![0x41; before], one.to_vec(), vec![0x42; behind]].concat();
    // At the end of a text there is more to say: the comparison alone is made.
    let seen = seen.filter(|_| behind > 0);
    let text = seen.map(|seen| format!("{}{seen}{}", "A".repeat(before), "B".repeat(behind)));
    both_ways(&row, text.as_deref());
}

fn at_places(befores: &[usize], behinds: &[usize]) {
    for septet in 0..=127 {
        let alone = (septet != ESCAPE).then(|| seen(septet));
        for before in befores {
            for behind in behinds {
                within(&[septet], alone, *before, *behind);
                let pair = [ESCAPE, septet];
                within(&pair, Some(seen_escaped(septet)), *before, *behind);
            }
        }
    }
}

/// Each bit of an octet, and the octet boundary behind.
#[test]
fn septet_in_octets() {
    let befores = [0, 1, 2, 3, 4, 5, 6, 7, 8, 13, 14, 15, 16];
    at_places(&befores, &[0, 1, 2, 3, 4, 5, 6, 7, 8]);
}

/// The cells at which a line breaks.
#[test]
fn septet_at_a_break() {
    at_places(&[38, 39, 40, 41, 80, 81, 82], &[0, 1, 2, 39, 40, 41]);
}

/// All pairs of septets at the end of a string, on the octet boundary and beside it.
#[test]
fn last_two() {
    for last in 0..=127 {
        for before_it in [0x00, 0x0A, 0x0D, 0x1B, 0x20, 0x41] {
            for before in [0, 4, 5, 6, 7, 12, 13, 14, 15, 38, 39] {
                let row = [vec![0x41; before], vec![before_it, last]].concat();
                both_ways(&row, None);
            }
        }
    }
}
