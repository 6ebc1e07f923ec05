//! Conversations of up to 50 steps, the table carried on.

use crate::both::{compare, on_second, Call, Facts};
use crate::chance::Chance;
use crate::damage;
use crate::growing;
use crate::messages;
use crate::rare;
use crate::tables;
use crate::tally::Tally;
use crate::waiting::grown;
use crate::wishes;

/// The number of steps, which SMR_STEPS may raise.
const STEPS: usize = 500_000;
const LONGEST_TALK: usize = 50;
const WORKERS: usize = 2;

#[test]
fn talks() {
    let asked = std::env::var("SMR_STEPS").ok();
    let asked = asked.and_then(|n| n.parse().ok()).unwrap_or(STEPS);
    let share = asked.max(STEPS).div_ceil(WORKERS);
    let mut tally = Tally::default();
    std::thread::scope(|scope| {
        let workers = [1, 2].map(|w| scope.spawn(move || work(w, share)));
        for worker in workers {
            tally.merge(worker.join().expect("a worker's talks"));
        }
    });
    tally.print();
    tally.check();
}

/// One worker's talks, each with a seed of its own.
fn work(worker: u64, steps: usize) -> Tally {
    let mut tally = Tally::default();
    let mut done = 0;
    for talk in 0.. {
        let mut c = Chance::new(1_000_003 * worker + 7 * talk + 1);
        let length = c.range(1, LONGEST_TALK).min(steps - done);
        hold(&mut c, length, &mut tally);
        done += length;
        if done == steps {
            break;
        }
    }
    tally
}

/// A talk. In two of three the table grows from zeros by what is said alone: what is
/// rare is then said from a copy.
fn hold(c: &mut Chance, length: usize, tally: &mut Tally) {
    let grows = !c.one_in(3);
    let mut table = match grows {
        true => tables::named("fresh"),
        false => tables::random(c),
    };
    for _ in 0..length {
        match c.below(240) {
            0..=5 => say_to_damaged(c, &table, tally),
            6..=8 => {
                let changed = damage::changed(c, &table);
                let call = call(c, &table);
                say(c, &changed, &call, tally);
            }
            9..=36 => {
                let mut image = table.clone();
                let call = rare::call(c, &mut image);
                let facts = say(c, &image, &call, tally);
                if !grows {
                    table = facts.table;
                }
            }
            37..=130 if grows => {
                let call = growing::call(c, &table);
                table = say(c, &table, &call, tally).table;
                tally.count_met(&grown(&table));
            }
            _ => {
                let call = call(c, &table);
                table = say(c, &table, &call, tally).table;
            }
        }
    }
}

/// A message or a call that suits the table more or less.
fn call(c: &mut Chance, table: &[u8]) -> Call {
    match c.below(5) {
        0..=2 => Call::Receive(messages::message(c, table)),
        _ => wishes::call(c, table),
    }
}

/// A call on both, with a buffer by chance.
fn say(c: &mut Chance, table: &[u8], call: &Call, tally: &mut Tally) -> Facts {
    let room = room(c, table, call);
    let facts = compare(table, call, room);
    tally.add(table, call, &facts);
    facts
}

/// "28 damaged image" comes first, whatever is asked.
fn say_to_damaged(c: &mut Chance, table: &[u8], tally: &mut Tally) {
    let (image, kind, _) = damage::damaged(c, table);
    let call = call(c, table);
    let facts = say(c, &image, &call, tally);
    assert_eq!(facts.code(), 28, "{}", damage::KINDS[kind].0);
    tally.count_met(&[("damaged", kind as u8 + 1)]);
}

/// A buffer's length, 0 to 300, often at the edge of what the call needs.
fn room(c: &mut Chance, table: &[u8], call: &Call) -> usize {
    match c.below(16) {
        0 => c.below(301),
        1 => c.below(20),
        2..=3 => edge(table, call) + c.below(3) - 1,
        4 => 12,
        _ => 300,
    }
}

/// The least length that the call needs, or 1.
fn edge(table: &[u8], call: &Call) -> usize {
    match call {
        Call::Receive(_) => 12,
        _ => on_second(table, call, &[0; 300]).received.written.max(1),
    }
}
