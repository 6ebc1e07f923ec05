//! Every row of up to five octets out of ten, at each place of a message.

use crate::both::{compare, compare_message, Call};
use crate::extent::longest_row;
use crate::notation::octets;
use crate::tables;

/// Octets that make elements, sound and unsound.
const OF_ELEMENTS: [u8; 10] = [0x00, 0x01, 0x02, 0x04, 0x05, 0x1F, 0x30, 0x80, 0x81, 0x82];
/// Octets that make information elements.
const OF_MESSAGES: [u8; 10] = [0x00, 0x01, 0x02, 0x08, 0x0F, 0x10, 0x1C, 0x7F, 0x80, 0xFF];
/// Octets that make errors: of the lists of 10 and 11, of none, not in the table.
const OF_ERRORS: [u8; 10] = [0x00, 0x01, 0x02, 0x05, 0x0A, 0x14, 0x1F, 0x22, 0x80, 0x81];
/// Digits, and octets that are nearly digits.
const OF_PASSWORDS: [u8; 10] = [0x20, 0x29, 0x2F, 0x30, 0x31, 0x38, 0x39, 0x3A, 0x40, 0xB0];
/// Octets that make an SS-ForBS.
const OF_SERVICES: [u8; 10] = [0x00, 0x01, 0x02, 0x04, 0x1F, 0x30, 0x81, 0x82, 0x83, 0x84];

/// A table, a message's first octets, and the nested elements around the row:
/// tag, then the octets that stand before it there.
type Place = (&'static str, &'static str, &'static [(u8, &'static str)]);

const PLACES: &[Place] = &[
    ("own17", "8B3A", &[(0xA1, "")]),
    ("own17", "8B3A", &[(0xA1, "020107")]),
    ("own17", "8B3A", &[(0xA1, "020107800101")]),
    ("own17", "8B3A", &[(0xA1, "020107020112")]),
    ("own17", "8B3A", &[(0xA1, "020107020126")]),
    ("owns4", "8B3A", &[(0xA1, "020107")]),
    ("eight", "8B3A", &[(0xA1, "")]),
    ("peers3", "0B3A", &[(0xA1, "")]),
    ("open", "0B3A", &[(0xA1, "02010502013C"), (0x30, "")]),
    ("open", "0B3A", &[(0xA1, "02010502013D"), (0x30, "04010F")]),
    (
        "open",
        "0B3A",
        &[(0xA1, "02010502013C"), (0x30, "04010F040141")],
    ),
    ("open", "0B3A", &[(0xA1, "020105020112"), (0x0A, "")]),
    ("own59", "8B3A", &[(0xA2, "")]),
    ("owns4", "8B3A", &[(0xA2, "")]),
    ("owns3", "8B3A", &[(0xA2, "020102"), (0x30, "02013B")]),
    ("own59", "8B3A", &[(0xA2, "020101")]),
    ("own59", "8B3A", &[(0xA2, "020101"), (0x30, "")]),
    ("own59", "8B3A", &[(0xA2, "020101"), (0x30, "02013B")]),
    (
        "own59",
        "8B3A",
        &[(0xA2, "020101"), (0x30, "02013B"), (0x30, "")],
    ),
    (
        "own59",
        "8B3A",
        &[(0xA2, "020101"), (0x30, "02013B"), (0x30, "04010F040141")],
    ),
    ("own10", "8B3A", &[(0xA2, "020101"), (0x30, "02010A")]),
    (
        "own17",
        "8B3A",
        &[(0xA2, "020101"), (0x30, "020111"), (0x12, "")],
    ),
    ("own10", "8B3A", &[(0xA3, "")]),
    ("eight", "8B3A", &[(0xA3, "")]),
    ("own10", "8B3A", &[(0xA3, "020101")]),
    ("own10", "8B3A", &[(0xA3, "020101020114")]),
    ("own10", "8B3A", &[(0xA3, "020101020147")]),
    ("own10", "8B2A1C", &[(0xA3, "020101020114")]),
    ("own59", "8B3A", &[(0xA4, "")]),
    ("own59", "8B3A", &[(0xA4, "020101")]),
    ("own59", "8B3A", &[(0xA4, "0500")]),
    ("own59", "8B2A1C", &[(0xA2, "020101")]),
    (
        "fresh",
        "0B3B1C",
        &[(0xA1, "02010502013C"), (0x30, "04010F")],
    ),
];

#[test]
fn in_components() {
    for place in PLACES {
        at(place, &OF_ELEMENTS);
    }
}

#[test]
fn in_errors() {
    for table in ["own10", "own11", "owns4"] {
        for head in ["8B3A", "8B2A1C"] {
            at(&(table, head, &[(0xA3, "020101")]), &OF_ERRORS);
        }
    }
}

#[test]
fn in_passwords() {
    let of_17 = &[(0xA2, "020101"), (0x30, "020111"), (0x12, "")];
    let of_10 = &[(0xA2, "020101"), (0x30, "02010A"), (0x12, "")];
    for head in ["8B3A", "8B2A1C"] {
        at(&("own17", head, of_17), &OF_PASSWORDS);
    }
    at(&("own10", "8B3A", of_10), &OF_PASSWORDS);
    let table = tables::named("peer18");
    each_row(&OF_PASSWORDS, |row| {
        let call = Call::Result((0, 0), 5, nested(&[(0x12, "")], row));
        compare(&table, &call, 16 + row.len());
    });
}

/// Each row at this place.
fn at((table, head, nest): &Place, alphabet: &[u8; 10]) {
    let (table, head) = (tables::named(table), octets(head));
    each_row(alphabet, |row| {
        let value = nested(nest, row);
        let message = [&head[..], &[value.len() as u8], &value].concat();
        compare_message(&table, &message, 12 + row.len());
    });
}

#[test]
fn behind_the_head() {
    let heads = [
        ("own59", "8B2A"),
        ("own59", "8B2A1C05A203020101"),
        ("own59", "8B2A0801"),
        ("fresh", "0B3B"),
        ("fresh", "0B3B1C"),
        ("fresh", "0B3B1C08A106020107020126"),
        ("open", "0B3A"),
        ("open", "0B3A00"),
        ("open", "0B3A02A500"),
    ];
    for (table, head) in heads {
        let (table, head) = (tables::named(table), octets(head));
        each_row(&OF_MESSAGES, |row| {
            compare_message(&table, &[&head[..], row].concat(), 12 + row.len());
        });
    }
}

#[test]
fn in_parameters_of_calls() {
    let places: [(u8, &[(u8, &str)]); 6] = [
        (11, &[]),
        (12, &[(0x30, "")]),
        (13, &[(0x30, "040111")]),
        (17, &[]),
        (10, &[]),
        (59, &[(0x30, "04010F")]),
    ];
    let table = tables::named("fresh");
    for (operation, nest) in places {
        each_row(&OF_SERVICES, |row| {
            let call = Call::Begin(operation, 1, nested(nest, row));
            compare(&table, &call, 30);
        });
    }
}

/// The row within its elements, the outermost first.
fn nested(nest: &[(u8, &str)], row: &[u8]) -> Vec<u8> {
    let Some(((tag, before), inner)) = nest.split_first() else {
        return row.to_vec();
    };
    let contents = [octets(before), nested(inner, row)].concat();
    [vec![*tag, contents.len() as u8], contents].concat()
}

fn each_row(alphabet: &[u8; 10], mut run: impl FnMut(&[u8])) {
    for length in 0..=longest_row() {
        for number in 0..10usize.pow(length) {
            let digit = |place| alphabet[number / 10usize.pow(place) % 10];
            let row: Vec<u8> = (0..length).map(digit).collect();
            run(&row);
        }
    }
}
