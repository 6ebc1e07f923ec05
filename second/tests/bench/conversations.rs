//! Conversations of many lines: messages and calls by chance, the table carried on.

use crate::call::Call;
use crate::chance::Chance;
use crate::damage;
use crate::growing;
use crate::messages;
use crate::occurrences::Occurrences;
use crate::proved::compare;
use crate::rare;
use crate::records;
use crate::tables;
use crate::talk::Talk;
use crate::waiting::grown;
use crate::wishes;
use crate::writing::{self, blanks, with_octets};
use second::batch::SLOT;

const CONVERSATIONS: u64 = 24;
const LINES: usize = 10_000;

#[test]
fn conversations() {
    let mut occurrences = Occurrences::default();
    // an emulator is some ten times slower
    let emulated = std::env::var_os("SMR_EMULATED").is_some();
    let share = if emulated { 3 } else { 1 };
    for seed in 1..=CONVERSATIONS / share {
        let talk = conversation(seed);
        occurrences.add(&compare(&talk.input), &talk.met);
    }
    occurrences.check();
}

/// In two of three the table grows from zeros by what is said alone: other tables
/// are set for a call or a few, and then the one before again.
fn conversation(seed: u64) -> Talk {
    let mut c = Chance::new(7_919 * seed);
    let mut talk = Talk::default();
    let grows = !seed.is_multiple_of(3);
    while talk.lines < LINES {
        match c.below(100) {
            0..=1 if !grows => set_table(&mut c, &mut talk),
            2..=3 => damage(&mut c, &mut talk),
            4..=5 => talk.say(b"table"),
            6..=11 => short_of_room(&mut c, &mut talk),
            12 => talk.say(passed_over(&mut c)),
            13..=15 => {
                let line = line(&mut c, &talk);
                talk.say(writing::spoiled(&mut c, &line));
            }
            16 if c.one_in(2) => talk.say(over(&mut c)),
            17..=18 => batch(&mut c, &mut talk),
            19..=34 => rare_call(&mut c, &mut talk, grows),
            35..=62 if grows => grow(&mut c, &mut talk),
            _ => one_call(&mut c, &mut talk),
        }
    }
    talk
}

fn grow(c: &mut Chance, talk: &mut Talk) {
    let call = growing::call(c, talk.sound());
    talk.call(c, &call);
    talk.met.extend(grown(talk.sound()));
}

/// A message or a call that suits the table more or less.
fn call(c: &mut Chance, talk: &Talk) -> Call {
    match c.below(5) {
        0..=2 => Call::Receive(messages::message(c, talk.sound())),
        _ => wishes::call(c, talk.sound()),
    }
}

fn line(c: &mut Chance, talk: &Talk) -> Vec<u8> {
    if c.one_in(20) {
        return batch_line(c, talk, 2);
    }
    let call = call(c, talk);
    writing::line(c, &call)
}

fn one_call(c: &mut Chance, talk: &mut Talk) {
    let call = call(c, talk);
    talk.call(c, &call);
}

/// Recorded messages, sound or spoiled.
fn batch_line(c: &mut Chance, talk: &Talk, count: usize) -> Vec<u8> {
    let messages = records::conversation(c, talk.sound(), count);
    let records = match c.one_in(4) {
        true => records::spoiled(c, &messages),
        false => records::records(&messages),
    };
    writing::batch(c, &records)
}

/// A batch, often with a buffer at the edge of what its slots need.
fn batch(c: &mut Chance, talk: &mut Talk) {
    let count = c.pick(&[0, 1, 1, 2, 2, 3, 4, 5, 6, 18, 19, 21, 22]);
    let line = batch_line(c, talk, count);
    if c.flip() {
        let room = (SLOT * count + c.below(3)).saturating_sub(1);
        talk.say(format!("buffer {room}"));
    }
    talk.say(line);
    talk.say(c.pick(&["buffer 300", "buffer 255"]));
}

fn table(c: &mut Chance, image: &[u8]) -> Vec<u8> {
    with_octets(c, &["table".to_string()], image)
}

fn set_table(c: &mut Chance, talk: &mut Talk) {
    let image = match c.below(4) {
        0 => tables::named(c.pick(&[
            "fresh", "w1", "both17", "other17", "full", "crowded", "owns3", "owns4", "peers3",
            "peers4", "eight", "apart",
        ])),
        _ => tables::random(c),
    };
    talk.say(table(c, &image));
}

/// A damaged image, or one of another length, for a call or a few.
fn damage(c: &mut Chance, talk: &mut Talk) {
    let sound = talk.sound().to_vec();
    let (image, met) = match c.below(8) {
        0 => {
            let length = c.pick(&[1, 2, 69, 70, 237, 239, 299, 300, 301, 302]);
            (c.octets(length), None)
        }
        1 => (damage::changed(c, &sound), None),
        _ => {
            let (image, kind, _) = damage::damaged(c, &sound);
            (image, Some(("damaged", kind as u8 + 1)))
        }
    };
    talk.say(table(c, &image));
    for _ in 0..c.range(1, 3) {
        match c.one_in(6) {
            true => talk.say(batch_line(c, talk, 1)),
            false => one_call(c, talk),
        }
        // A line without octets sets none.
        if talk.table() == image {
            talk.met.extend(met);
        }
    }
    talk.say(b"table");
    talk.say(table(c, &sound));
}

/// A call that is rare by chance, from a table that suits it; then perhaps the one
/// before again.
fn rare_call(c: &mut Chance, talk: &mut Talk, goes_back: bool) {
    let sound = talk.sound().to_vec();
    let mut image = sound.clone();
    let call = rare::call(c, &mut image);
    talk.say(table(c, &image));
    talk.call(c, &call);
    if goes_back {
        talk.say(table(c, &sound));
    }
}

/// A buffer at the edge of what a call needs, or any other, then a long one.
fn short_of_room(c: &mut Chance, talk: &mut Talk) {
    let line = line(c, talk);
    let answer = talk.answer_with_room(&line);
    let message = answer.split_once("message").unwrap_or_default().1;
    let edge = match message.split_whitespace().count() {
        0 => 12,
        length => length,
    };
    let room = match c.below(6) {
        0..=3 => edge + c.below(3) - 1,
        4 => c.pick(&[0, 1, 255, 300, 301]),
        _ => c.below(301),
    };
    talk.say(format!("buffer {room}"));
    talk.say(line);
    if c.one_in(4) {
        one_call(c, talk);
    }
    talk.say(c.pick(&["buffer 300", "buffer 255", "buffer 00300"]));
}

fn passed_over(c: &mut Chance) -> Vec<u8> {
    let mut line = blanks(c, 0);
    if c.flip() {
        line.extend(b"# receive 0B 3C");
    }
    line
}

/// About 4,096 octets, mostly too many.
fn over(c: &mut Chance) -> Vec<u8> {
    let words = c.pick(&[
        "receive",
        "batch",
        "table",
        "begin 59 1",
        "invoke 0 0 59 1",
        "result 0 0 1",
        "error 0 0 1 1",
    ]);
    let count = c.pick(&[4_095, 4_096, 4_097, 4_097, 4_097, 4_098, 5_000]);
    let octets = c.octets(count);
    let mut line = with_octets(c, &[words.to_string()], &octets);
    if c.one_in(4) {
        line.pop();
    }
    line
}
