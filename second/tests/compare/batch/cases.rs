//! A case of a batch: "out= the octets of the batch's output (else 60, each EE
//! beforehand)"; output is all of it afterwards, table the entries that are open.

use super::Facts;
use crate::cases::{entry_holds, read_table};
use crate::notation::octets;
use crate::tables;

/// What runs a batch: from this table, with this in the output beforehand.
pub type Run = fn(&[u8], &[u8], &[u8]) -> Facts;

struct Case {
    table: Vec<u8>,
    records: Vec<u8>,
    room: usize,
}

/// Whether all that stands behind the arrow holds.
pub fn holds(words: &[&str], wanted: &str, run: Run) -> bool {
    let case = read_case(words);
    let facts = run(&case.table, &case.records, &vec![0xEE; case.room]);
    let mut wanted = wanted.split(',').map(str::trim);
    let code = wanted.next().expect("a code");
    let held = facts.batched.code.to_string() == code;
    let mut wanted = wanted.map(|fact| fact.split_once('=').expect("name=wanted"));
    held && wanted.all(|(name, wanted)| fact_holds(name, wanted, &case, &facts))
}

fn read_case(words: &[&str]) -> Case {
    let is_room = |w: &&&str| w.starts_with("out=");
    let room = words.iter().find(is_room);
    let room = room.map_or(60, |w| w["out=".len()..].parse().expect("a length"));
    let words: Vec<&str> = words.iter().filter(|w| !is_room(w)).copied().collect();
    let (table, records) = read_table(&words);
    Case {
        table,
        records: octets(&records.join(" ")),
        room,
    }
}

fn fact_holds(name: &str, wanted: &str, case: &Case, facts: &Facts) -> bool {
    match name {
        "slots" => facts.batched.slots.to_string() == wanted,
        "output" => facts.output == octets(wanted),
        "table" => facts.table == tables::opened(wanted),
        "kept" => (facts.table == case.table) == (wanted == "True"),
        // The entry of the first message.
        _ => {
            let first = case.records.get(1).expect("a message");
            let entry = tables::entry(&facts.table, first >> 7, first >> 4 & 7);
            entry_holds(name, wanted, &entry)
        }
    }
}
