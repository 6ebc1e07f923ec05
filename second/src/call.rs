//! Local calls: begin, invoke within, result, error, release.

use crate::element::{Element, Row};
use crate::message::LONGEST;
use crate::operation;
use crate::parameter::Need;
use crate::part::Part;
use crate::table::{Entry, Open, Side, Table, Transaction, Waiting};
use crate::write;

/// What a local call gives.
#[derive(Clone, Debug, PartialEq, Eq)]
pub struct Called {
    /// 0, or the refusal, 20 to 28.
    pub code: u8,
    /// "for begin, the value taken"
    pub value: u8,
    pub message: Vec<u8>,
    /// The buffer after.
    pub buffer: Vec<u8>,
    /// The table after.
    pub table: Vec<u8>,
}

/// The refusals by their numbers.
#[derive(Clone, Copy, Debug, PartialEq, Eq)]
enum Refusal {
    NotListed = 20,
    NoValueClosed = 21,
    NotOpen = 22,
    OwnOutstanding = 23,
    NoSuchPeerInvoke = 24,
    Parameter = 25,
    MessageOver255 = 26,
    BufferShorter = 27,
    Damaged = 28,
}

/// A call that succeeds: its transaction, the entry after and the message.
struct Done {
    table: Table,
    transaction: Transaction,
    entry: Entry,
    message: Vec<u8>,
}

/// REGISTER with an Invoke.
pub fn begin(image: &[u8], operation: u8, id: i8, parameter: &[u8], buffer: &[u8]) -> Called {
    let done = try_begin(image, operation, id, parameter, buffer.len());
    let value = done.as_ref().map_or(0, |d| d.transaction.value);
    Called {
        value,
        ..conclude(done, image, buffer)
    }
}

/// Another Invoke, in FACILITY.
pub fn invoke(
    image: &[u8],
    named: (u8, u8),
    operation: u8,
    id: i8,
    parameter: &[u8],
    buffer: &[u8],
) -> Called {
    let done = try_invoke(image, named, operation, id, parameter, buffer.len());
    conclude(done, image, buffer)
}

/// Return result, in FACILITY.
pub fn result(image: &[u8], named: (u8, u8), id: i8, parameter: &[u8], buffer: &[u8]) -> Called {
    let done = try_result(image, named, id, parameter, buffer.len());
    conclude(done, image, buffer)
}

/// Return error, in FACILITY.
pub fn error(
    image: &[u8],
    named: (u8, u8),
    id: i8,
    code: u8,
    parameter: &[u8],
    buffer: &[u8],
) -> Called {
    let done = try_error(image, named, id, code, parameter, buffer.len());
    conclude(done, image, buffer)
}

/// RELEASE COMPLETE.
pub fn release(image: &[u8], named: (u8, u8), buffer: &[u8]) -> Called {
    let done = try_release(image, named, buffer.len());
    conclude(done, image, buffer)
}

fn try_begin(
    image: &[u8],
    operation: u8,
    id: i8,
    parameter: &[u8],
    room: usize,
) -> Result<Done, Refusal> {
    let table = undamaged(image)?;
    let need = operation::we_begin(operation).ok_or(Refusal::NotListed)?;
    let transaction = table.lowest_closed_own().ok_or(Refusal::NoValueClosed)?;
    suited(need, parameter)?;
    let message = write::register(transaction, &write::invoke(id, operation, parameter));
    let open = Open {
        own: Side::default().and(Waiting { id, operation }),
        peer: Side::default(),
    };
    fitting(table, transaction, Entry::Open(open), message, room)
}

fn try_invoke(
    image: &[u8],
    named: (u8, u8),
    operation: u8,
    id: i8,
    parameter: &[u8],
    room: usize,
) -> Result<Done, Refusal> {
    let table = undamaged(image)?;
    let need = operation::we_begin(operation).ok_or(Refusal::NotListed)?;
    let (transaction, open) = opened(&table, named)?;
    // "when four wait or when the id is already among ours"
    if open.own.is_full() || open.own.with_id(id).is_some() {
        return Err(Refusal::OwnOutstanding);
    }
    suited(need, parameter)?;
    let message = write::facility(transaction, &write::invoke(id, operation, parameter));
    let own = open.own.and(Waiting { id, operation });
    let entry = Entry::Open(Open { own, ..open });
    fitting(table, transaction, entry, message, room)
}

fn try_result(
    image: &[u8],
    named: (u8, u8),
    id: i8,
    parameter: &[u8],
    room: usize,
) -> Result<Done, Refusal> {
    let table = undamaged(image)?;
    let (transaction, open) = opened(&table, named)?;
    let peer = peer_invoke(open, id)?;
    suited(operation::result_written(peer.operation), parameter)?;
    let message = write::facility(transaction, &write::result(id, peer.operation, parameter));
    fitting(table, transaction, answered(open, id), message, room)
}

fn try_error(
    image: &[u8],
    named: (u8, u8),
    id: i8,
    code: u8,
    parameter: &[u8],
    room: usize,
) -> Result<Done, Refusal> {
    let table = undamaged(image)?;
    // Any listed code: the operations' own lists bind "received errors only".
    if !operation::is_error_code(code) {
        return Err(Refusal::NotListed);
    }
    let (transaction, open) = opened(&table, named)?;
    peer_invoke(open, id)?;
    // "25 parameter, which for an error is none or one element"
    one_element(parameter)?;
    let message = write::facility(transaction, &write::error(id, code, parameter));
    fitting(table, transaction, answered(open, id), message, room)
}

fn try_release(image: &[u8], named: (u8, u8), room: usize) -> Result<Done, Refusal> {
    let table = undamaged(image)?;
    let (transaction, _) = opened(&table, named)?;
    // "Release closes the entry."
    let message = write::release(transaction);
    fitting(table, transaction, Entry::Closed, message, room)
}

/// "28 damaged image", or not 238 octets
fn undamaged(image: &[u8]) -> Result<Table, Refusal> {
    Table::decode(image).ok_or(Refusal::Damaged)
}

/// "22 transaction not open"; "a flag over 1 or a value over 6 is 22"
fn opened(table: &Table, (flag, value): (u8, u8)) -> Result<(Transaction, Open), Refusal> {
    let transaction = Transaction::named(flag, value).ok_or(Refusal::NotOpen)?;
    match table.entry(transaction) {
        Entry::Open(open) => Ok((transaction, open)),
        Entry::Closed => Err(Refusal::NotOpen),
    }
}

/// "24 no such peer invoke"
fn peer_invoke(open: Open, id: i8) -> Result<Waiting, Refusal> {
    open.peer.with_id(id).ok_or(Refusal::NoSuchPeerInvoke)
}

/// "Answering clears the peer invoke": the one with this id, in any order.
fn answered(open: Open, id: i8) -> Entry {
    let peer = open.peer.without(id);
    Entry::Open(Open { peer, ..open })
}

/// "25 parameter"
fn suited(need: Need, parameter: &[u8]) -> Result<(), Refusal> {
    let element = one_element(parameter)?;
    match need.is_met_by(element.as_ref()) {
        true => Ok(()),
        false => Err(Refusal::Parameter),
    }
}

/// The parameter as one element; zero octets are none.
fn one_element(parameter: &[u8]) -> Result<Option<Element>, Refusal> {
    let mut row = Row::of(&Part::whole(parameter));
    let element = row.take().transpose().map_err(|_| Refusal::Parameter)?;
    match row.is_over() {
        true => Ok(element),
        false => Err(Refusal::Parameter),
    }
}

/// "26 message over 255; 27 buffer shorter than the message"
fn fitting(
    table: Table,
    transaction: Transaction,
    entry: Entry,
    message: Vec<u8>,
    room: usize,
) -> Result<Done, Refusal> {
    if message.len() > LONGEST {
        return Err(Refusal::MessageOver255);
    }
    if room < message.len() {
        return Err(Refusal::BufferShorter);
    }
    Ok(Done {
        table,
        transaction,
        entry,
        message,
    })
}

/// "Success returns 0, the message's length"; a refusal "its number", with
/// "table and buffer unchanged".
fn conclude(done: Result<Done, Refusal>, image: &[u8], buffer: &[u8]) -> Called {
    match done {
        Ok(Done {
            mut table,
            transaction,
            entry,
            message,
        }) => {
            table.set(transaction, entry);
            Called {
                code: 0,
                value: 0,
                buffer: write::lay(&message, buffer),
                message,
                table: table.encode(),
            }
        }
        Err(refusal) => Called {
            code: refusal as u8,
            value: 0,
            message: Vec::new(),
            buffer: buffer.to_vec(),
            table: image.to_vec(),
        },
    }
}
