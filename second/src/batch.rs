//! A batch: recorded messages, fed one by one from the table so far.

use crate::receive::receive;
use crate::table::Table;
use crate::write;

/// "a slot of 14 octets: verdict, reply length, reply filled up with zeros to 12"
pub const SLOT: usize = 2 + REPLY;
const REPLY: usize = 12;

/// What a batch gives.
#[derive(Clone, Debug, PartialEq, Eq)]
pub struct Batched {
    /// 0, or the refusal 28, 30 or 31.
    pub code: u8,
    /// One for each record; none if refused.
    pub slots: Vec<Slot>,
    /// The output after.
    pub output: Vec<u8>,
    /// The table after.
    pub table: Vec<u8>,
}

/// "what receive gives for message n from the table so far"; "What is shown is not
/// handed back."
#[derive(Clone, Debug, PartialEq, Eq)]
pub struct Slot {
    pub verdict: u8,
    pub reply: Vec<u8>,
}

/// "Refusals: 28 as before, then 30 a zero or cut record, then 31 fewer than 14 octets
/// a record; each refuses the whole call and changes nothing."
pub fn batch(image: &[u8], records: &[u8], output: &[u8]) -> Batched {
    if Table::decode(image).is_none() {
        return refused(28, image, output);
    }
    let Some(messages) = messages(records) else {
        return refused(30, image, output);
    };
    if output.len() < SLOT * messages.len() {
        return refused(31, image, output);
    }
    let (slots, table) = feed(image, &messages);
    Batched {
        code: 0,
        output: lay(&slots, output),
        slots,
        table,
    }
}

fn refused(code: u8, image: &[u8], output: &[u8]) -> Batched {
    Batched {
        code,
        slots: Vec::new(),
        output: output.to_vec(),
        table: image.to_vec(),
    }
}

/// The message of each record, "a length octet from 1 to 255 and that many octets";
/// None if one is zero, or "fewer octets are left than it says".
fn messages(records: &[u8]) -> Option<Vec<Vec<u8>>> {
    let mut messages = Vec::new();
    let mut rest = records;
    while let Some((length, behind)) = rest.split_first() {
        let (message, further) = behind.split_at_checked(usize::from(*length))?;
        if message.is_empty() {
            return None;
        }
        messages.push(message.to_vec());
        rest = further;
    }
    Some(messages)
}

/// The slots, and the table that the last message leaves.
fn feed(image: &[u8], messages: &[Vec<u8>]) -> (Vec<Slot>, Vec<u8>) {
    let mut table = image.to_vec();
    let mut slots = Vec::new();
    for message in messages {
        let received = receive(&table, message, &[0; REPLY]);
        slots.push(Slot {
            verdict: received.code,
            reply: received.reply,
        });
        table = received.table;
    }
    (slots, table)
}

/// "Octets after the last slot stay."
fn lay(slots: &[Slot], output: &[u8]) -> Vec<u8> {
    let written: Vec<Vec<u8>> = slots.iter().map(Slot::octets).collect();
    write::lay(&written.concat(), output)
}

impl Slot {
    fn octets(&self) -> Vec<u8> {
        let mut octets = vec![self.verdict, self.reply.len() as u8];
        octets.extend(&self.reply);
        octets.resize(SLOT, 0);
        octets
    }
}
