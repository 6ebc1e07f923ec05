//! Records by chance: messages near the table that those before lead to, and slices
//! with a bad record.

use crate::call::Call;
use crate::chance::Chance;
use crate::growing;
use crate::messages;
use second::ffi;

/// "a length octet from 1 to 255 and that many octets"
const LONGEST: usize = 255;

/// The messages as records, back to back.
pub fn records(messages: &[Vec<u8>]) -> Vec<u8> {
    let records: Vec<Vec<u8>> = messages.iter().map(|message| record(message)).collect();
    records.concat()
}

fn record(message: &[u8]) -> Vec<u8> {
    assert!((1..=LONGEST).contains(&message.len()), "no record");
    [&[message.len() as u8], message].concat()
}

/// So many messages, one conversation from this sound table.
pub fn conversation(c: &mut Chance, image: &[u8], count: usize) -> Vec<Vec<u8>> {
    let mut table = image.to_vec();
    let mut messages: Vec<Vec<u8>> = Vec::new();
    for _ in 0..count {
        let message = match c.below(8) {
            0..=1 if !messages.is_empty() => messages[c.below(messages.len())].clone(),
            2..=4 => taken(c, &table),
            _ => recorded(messages::message(c, &table)),
        };
        // The archive is the faster one; whether it is right is seen elsewhere.
        ffi::receive(&mut table, &message, &mut [0; 12]);
        messages.push(message);
    }
    messages
}

/// A message by which the table grows, or any other.
fn taken(c: &mut Chance, table: &[u8]) -> Vec<u8> {
    match growing::call(c, table) {
        Call::Receive(message) => message,
        _ => recorded(messages::message(c, table)),
    }
}

/// A message that a record may have: what passes 255 octets is left out.
fn recorded(mut message: Vec<u8>) -> Vec<u8> {
    message.truncate(LONGEST);
    match message.is_empty() {
        true => vec![0x0B],
        false => message,
    }
}

/// These messages in a slice with a zero or a cut record, or changed so that there may
/// be one.
pub fn spoiled(c: &mut Chance, messages: &[Vec<u8>]) -> Vec<u8> {
    let mut slice = records(messages);
    // Where a record starts, or the end.
    let before = &messages[..c.below(messages.len() + 1)];
    let starts = before.iter().map(|message| 1 + message.len()).sum();
    match c.below(10) {
        // A zero record: first, anywhere, last.
        0 => slice.insert(0, 0),
        1 => slice.insert(starts, 0),
        2 => slice.push(0),
        // The last one cut: by one octet, by all but its length, by some.
        3 => drop(slice.pop()),
        4 => {
            slice.truncate(starts);
            slice.push(c.range(1, LONGEST) as u8);
        }
        5 => slice.truncate(c.below(slice.len() + 1)),
        // Another length than its own.
        6 if starts < slice.len() => slice[starts] = slice[starts].wrapping_add(1),
        7 if starts < slice.len() => slice[starts] = slice[starts].wrapping_sub(1),
        8 if !slice.is_empty() => {
            let at = c.below(slice.len());
            slice[at] = c.octet();
        }
        _ => {
            let count = c.range(1, 3);
            slice.extend(c.octets(count));
        }
    }
    slice
}
