//! Rows of records by chance, many of them: sound and spoiled, from sound and damaged
//! tables, with room around what they need.

use super::alone::{check_one_by_one, check_parted};
use super::bad::{whole, BAD};
use super::{compare, Facts};
use crate::call::Call;
use crate::chance::Chance;
use crate::damage;
use crate::rare;
use crate::records::{conversation, records, spoiled};
use crate::tables;
use crate::tally::Tally;
use second::batch::SLOT;
use second::ffi;

/// Conversations, each in ten batches.
const ROWS: u64 = 20_000;
const WORKERS: u64 = 2;
/// The longest row.
const LONGEST: usize = 40;

/// What must occur: the codes and the verdicts in slots, each number and no other (6, 27
/// and 28 never stand in a slot); a refusal though a later one is due too; the octets of
/// output that are missing or left over, two for more.
const BATCHED: [(&str, &[u8]); 6] = [
    ("batch", &[0, 28, 30, 31]),
    ("slot", &[0, 1, 2, 3, 4, 5, 7]),
    ("28 before", &[30, 31]),
    ("30 before", &[31]),
    ("missing", &[1, 2]),
    ("left over", &[0, 1, 2]),
];

#[test]
fn rows() {
    let mut tally = Tally::default();
    std::thread::scope(|scope| {
        let workers = [0, 1].map(|w| scope.spawn(move || work(w)));
        for worker in workers {
            tally.merge(worker.join().expect("a worker's rows"));
        }
    });
    tally.print();
    tally.check_named(BATCHED.into_iter().chain(BAD));
}

fn work(worker: u64) -> Tally {
    let mut tally = Tally::default();
    for time in 0..ROWS / WORKERS {
        let mut c = Chance::new(11_000_000 + WORKERS * time + worker);
        row(&mut c, &mut tally);
    }
    tally
}

/// One conversation: with room enough and without, spoiled, from a damaged table.
fn row(c: &mut Chance, tally: &mut Tally) {
    let (table, messages) = talk(c);
    let slice = records(&messages);
    let needed = SLOT * messages.len();
    fed(c, &table, &messages, tally);

    let short = match c.flip() {
        true => needed.saturating_sub(1),
        false => c.below(needed.max(1)),
    };
    say(&table, &slice, &c.octets(short), tally);
    for _ in 0..5 {
        let bad = spoiled(c, &messages);
        say(&table, &bad, &room(c, needed), tally);
    }
    let (image, ..) = damage::damaged(c, &table);
    say(&image, &slice, &room(c, needed), tally);
    say(&image, &spoiled(c, &messages), &room(c, needed), tally);
    let image = damage::changed(c, &table);
    say(&image, &slice, &room(c, needed), tally);
}

/// The conversation with room enough, and what the archive's own calls give for it.
fn fed(c: &mut Chance, table: &[u8], messages: &[Vec<u8>], tally: &mut Tally) {
    let over = c.pick(&[0, 0, 1, 2, 13, 14, 15, 300]);
    let lent = c.octets(SLOT * messages.len() + over);
    let facts = say(table, &records(messages), &lent, tally);
    assert_eq!(facts.batched.code, 0, "there is room");
    check_one_by_one(table, messages, &facts, || vec![0; 12]);
    check_one_by_one(table, messages, &facts, || buffer(c));
    if c.one_in(if messages.len() < 8 { 4 } else { 32 }) {
        check_parted(table, messages, &lent, &facts);
    }
}

/// A sound table, and a conversation from it of up to forty messages.
fn talk(c: &mut Chance) -> (Vec<u8>, Vec<Vec<u8>>) {
    let count = match c.below(40) {
        0..=1 => 0,
        2..=32 => c.range(1, 3),
        33..=38 => c.range(4, 8),
        _ => c.range(9, LONGEST - 1),
    };
    let mut table = match c.flip() {
        true => tables::named("fresh"),
        false => tables::random(c),
    };
    // What is rare stands first, from a table that suits it.
    let rare = c.one_in(4).then(|| rare::call(c, &mut table));
    let Some(Call::Receive(first)) = rare else {
        return (table.clone(), conversation(c, &table, count));
    };
    let mut after = table.clone();
    ffi::receive(&mut after, &first, &mut [0; 12]);
    let behind = conversation(c, &after, count);
    (table, [vec![first], behind].concat())
}

/// A reply buffer of 12 octets or more.
fn buffer(c: &mut Chance) -> Vec<u8> {
    let length = c.pick(&[12, 12, 13, 14, 40, 300]);
    c.octets(length)
}

/// An output around what is needed, much more or much less.
fn room(c: &mut Chance, needed: usize) -> Vec<u8> {
    let length = match c.below(12) {
        0 => 0,
        1..=2 => needed.saturating_sub(1),
        3 => needed.saturating_sub(SLOT),
        4 => c.below(needed + 1),
        5..=6 => needed,
        7 => needed + 1,
        8 => needed + SLOT,
        9 => needed + c.below(300),
        _ => needed + c.below(40),
    };
    c.octets(length)
}

/// A batch on both, and what it met.
fn say(table: &[u8], slice: &[u8], lent: &[u8], tally: &mut Tally) -> Facts {
    let facts = compare(table, slice, lent);
    let (count, bad) = whole(slice);
    let needed = SLOT * count;
    let is_short = lent.len() < needed;
    tally.one_more();
    tally.count("batch", facts.batched.code);
    for slot in facts.slots() {
        tally.count("slot", slot[0]);
    }
    match facts.batched.code {
        0 => tally.count("left over", (lent.len() - needed).min(2) as u8),
        28 if bad.is_some() => tally.count("28 before", 30),
        28 if is_short => tally.count("28 before", 31),
        30 => {
            tally.count_met(bad.as_slice());
            if is_short {
                tally.count("30 before", 31);
            }
        }
        31 => tally.count("missing", (needed - lent.len()).min(2) as u8),
        _ => (),
    }
    facts
}
