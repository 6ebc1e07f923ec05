//! Local calls with every number, and sound parameters changed and cut.

use crate::both::{compare, Call};
use crate::notation::{any, octets};
use crate::tables;

const TEXT: &str = "300604010F040141";

/// A call that takes a parameter, from its table, with one that suits.
type Suited = (&'static str, fn(Vec<u8>) -> Call, &'static str);

const SUITED: &[Suited] = &[
    ("fresh", |p| Call::Begin(59, 1, p), TEXT),
    (
        "fresh",
        |p| Call::Begin(59, 1, p),
        "300E04810111 0482000131 8103616263",
    ),
    (
        "fresh",
        |p| Call::Begin(59, 1, p),
        "307D04010F0478 text(120)",
    ),
    (
        "ownopen",
        |p| Call::Begin(59, -1, p),
        "3081A604010F0481A0 text(160)",
    ),
    ("fresh", |p| Call::Begin(10, 1, p), "30030401 11"),
    ("fresh", |p| Call::Begin(10, 1, p), "120420202020"),
    ("fresh", |p| Call::Begin(11, 1, p), "3003040111"),
    ("fresh", |p| Call::Begin(12, 1, p), "3006040111820100"),
    (
        "fresh",
        |p| Call::Begin(13, 1, p),
        "300A040111830182 84008100",
    ),
    (
        "fresh",
        |p| Call::Begin(14, -128, p),
        "3008040111 820110 8200",
    ),
    ("fresh", |p| Call::Begin(17, 1, p), "040192"),
    ("fresh", |p| Call::Begin(17, 1, p), "04810192"),
    ("w1", |p| Call::Invoke((0, 0), 59, 5, p), TEXT),
    ("ownopen", |p| Call::Invoke((1, 0), 11, 5, p), "3003040111"),
    ("open", |p| Call::Invoke((0, 0), 17, 5, p), "040192"),
    ("open", |p| Call::Invoke((0, 0), 10, 5, p), "A003800101"),
    ("w1", |p| Call::Result((0, 0), 5, p), TEXT),
    ("w1", |p| Call::Result((0, 0), 5, p), "none"),
    (
        "w1",
        |p| Call::Result((0, 0), 5, p),
        "3081A604010F0481A0 text(160)",
    ),
    ("peer18", |p| Call::Result((0, 0), 5, p), "120431323334"),
    (
        "peer18",
        |p| Call::Result((0, 0), 5, p),
        "12820004 31323334",
    ),
    ("peer18", |p| Call::Result((0, 0), 5, p), "12810430393039"),
    ("peer61", |p| Call::Result((0, 0), 5, p), "none"),
    ("both17", |p| Call::Result((1, 0), 7, p), "120431323334"),
    // Among others that wait, of ours and of the peer's.
    ("owns3", |p| Call::Invoke((1, 0), 59, 9, p), TEXT),
    ("owns2", |p| Call::Invoke((1, 0), 17, 0, p), "040192"),
    ("peers4", |p| Call::Invoke((0, 0), 59, 5, p), TEXT),
    ("peers4", |p| Call::Result((0, 0), 5, p), TEXT),
    ("peers4", |p| Call::Result((0, 0), 6, p), "120431323334"),
    ("eight", |p| Call::Result((1, 0), 7, p), "none"),
    ("eight", |p| Call::Result((1, 0), 8, p), TEXT),
    ("eight", |p| Call::Error((1, 0), 6, 72, p), "0A0101"),
    ("w1", |p| Call::Error((0, 0), 5, 1, p), "none"),
    ("peer18", |p| Call::Error((0, 0), 5, 34, p), "120420202020"),
    ("peer61", |p| Call::Error((0, 0), 5, 72, p), "0A0101"),
    ("both17", |p| Call::Error((1, 0), 7, 38, p), "30820000"),
];

#[test]
fn suited_parameters_are_taken() {
    for (table, call, parameter) in SUITED {
        let call = call(octets(parameter));
        let facts = compare(&tables::named(table), &call, 300);
        if facts.code() != 0 {
            println!("| {parameter:.30}");
        }
        assert_eq!(facts.code(), 0);
    }
}

#[test]
fn parameters_changed_and_cut() {
    for (table, call, parameter) in SUITED {
        let (table, parameter) = (tables::named(table), octets(parameter));
        for end in 0..parameter.len() {
            compare(&table, &call(parameter[..end].to_vec()), 300);
            for octet in 0..=255 {
                let mut changed = parameter.clone();
                changed[end] = octet;
                compare(&table, &call(changed), 256 + usize::from(octet % 5));
            }
        }
        for octet in 0..=255 {
            compare(&table, &call([&parameter[..], &[octet]].concat()), 300);
        }
    }
}

/// Each buffer's length from 0 to 300.
#[test]
fn buffers() {
    for (table, call, parameter) in SUITED {
        for room in 0..=300 {
            compare(&tables::named(table), &call(octets(parameter)), room);
        }
    }
    for room in 0..=300 {
        compare(&tables::named("w1"), &Call::Release((0, 0)), room);
    }
}

/// One element of each length up to 300 and beyond, from each call.
#[test]
fn lengths() {
    let more = [1_000, 65_538, 65_539, 65_540, 70_000];
    for n in (2..=300).chain(more) {
        let p = || any(n);
        for room in [0, 254, 255, 300] {
            compare(&tables::named("fresh"), &Call::Begin(10, 1, p()), room);
            compare(&tables::named("fresh"), &Call::Begin(11, 1, p()), room);
            compare(
                &tables::named("open"),
                &Call::Invoke((0, 0), 10, 1, p()),
                room,
            );
            compare(&tables::named("w1"), &Call::Error((0, 0), 5, 1, p()), room);
            compare(&tables::named("w1"), &Call::Result((0, 0), 5, p()), room);
        }
    }
}

#[test]
fn operations_codes_and_ids() {
    for name in [
        "fresh", "w1", "both17", "ownopen", "full", "crowded", "damaged", "owns3", "owns4",
        "peers4", "eight",
    ] {
        let table = tables::named(name);
        for number in 0..=255 {
            for p in [TEXT, "none", "040192", "3003040111"].map(octets) {
                compare(&table, &Call::Begin(number, 3, p.clone()), 300);
                compare(&table, &Call::Begin(59, number as i8, p.clone()), 300);
                compare(&table, &Call::Invoke((0, 0), number, 3, p.clone()), 300);
                compare(
                    &table,
                    &Call::Invoke((1, 0), 59, number as i8, p.clone()),
                    300,
                );
                compare(&table, &Call::Error((0, 0), 5, number, p.clone()), 300);
                compare(
                    &table,
                    &Call::Error((1, 0), number as i8, 1, p.clone()),
                    300,
                );
                compare(&table, &Call::Result((0, 0), number as i8, p.clone()), 300);
                compare(&table, &Call::Result((1, 0), number as i8, p), 300);
            }
        }
    }
}

/// Each flag and each value.
#[test]
fn names() {
    for name in ["fresh", "w1", "full", "crowded", "eight", "damaged"] {
        let table = tables::named(name);
        for flag in 0..=255 {
            for value in 0..=255 {
                compare(&table, &Call::Release((flag, value)), 2);
                if flag < 4 || value < 9 {
                    let named = (flag, value);
                    compare(&table, &Call::Invoke(named, 59, 1, octets(TEXT)), 40);
                    compare(&table, &Call::Result(named, 5, octets(TEXT)), 40);
                    compare(&table, &Call::Error(named, 5, 1, vec![]), 40);
                }
            }
        }
    }
}
