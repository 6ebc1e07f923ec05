//! Components that messages carry: how they are sent, and what becomes of them.

use crate::call::Named;
use second::component::{Component, Fault};
use second::message;
use second::part::Part;
use second::step6;
use second::table::{Entry, Open, Table, Transaction};

pub const RELEASE_COMPLETE: u8 = 0x2A;
pub const FACILITY: u8 = 0x3A;
pub const REGISTER: u8 = 0x3B;

/// A message of this kind with this component, both of them short.
pub fn sent(kind: u8, (flag, value): Named, component: &[u8]) -> Vec<u8> {
    let mut message = vec![flag << 7 | value << 4 | 0x0B, kind];
    if kind != FACILITY {
        message.push(0x1C);
    }
    message.push(component.len() as u8);
    message.extend(component);
    message
}

/// An Invoke in FACILITY, with a short parameter that suits if it is served.
pub fn asked(named: Named, id: u8, linked: Option<u8>, operation: u8) -> Vec<u8> {
    let mut places = vec![0x02, 0x01, id];
    places.extend(linked.iter().flat_map(|linked| [0x80, 0x01, *linked]));
    places.extend([0x02, 0x01, operation]);
    match operation {
        18 => places.extend([0x0A, 0x01, 0x00]),
        60 | 61 => places.extend([0x30, 0x06, 0x04, 0x01, 0x0F, 0x04, 0x01, 0x41]),
        _ => (),
    }
    let component = [vec![0xA1, places.len() as u8], places].concat();
    sent(FACILITY, named, &component)
}

/// A component that got to step 6.
pub struct Weighed {
    /// The message's kind.
    pub kind: u8,
    pub component: Component,
    /// The entry as step 6 met it.
    pub open: Open,
    /// The operation of ours that waits under the id of a result or error, or 0.
    pub operation: u8,
    /// The number of its problem.
    pub problem: Option<u8>,
}

impl Weighed {
    /// What this message carries to this table. RELEASE COMPLETE has no reply that
    /// would tell the problem.
    pub fn of(table: &[u8], message: &[u8], room: usize) -> Option<Weighed> {
        let verdict = second::receive(table, message, &vec![0; room]).code;
        let &[first, kind, ..] = message else {
            return None;
        };
        let message = Part::whole(message);
        let facility = match (verdict, kind) {
            (5, RELEASE_COMPLETE) => message::release(&message).facility,
            (0 | 3, FACILITY) => message::facility(&message),
            (0 | 3, REGISTER) => message::register(&message),
            _ => None,
        };
        let component = Component::read(&facility?).ok()??;
        let open = open(table, (first >> 7, first >> 4 & 7))?;
        Some(Weighed {
            kind,
            open,
            operation: operation(&component, open),
            problem: problem(&component, open),
            component,
        })
    }
}

/// The entry as step 6 meets it.
pub fn open(table: &[u8], (flag, value): Named) -> Option<Open> {
    let transaction = Transaction::named(flag, value)?;
    match Table::decode(table)?.entry(transaction) {
        Entry::Open(open) => Some(open),
        Entry::Closed => Some(Open::default()),
    }
}

fn operation(component: &Component, open: Open) -> u8 {
    let ours = match component {
        Component::ReturnResult { id, .. } => open.own.with_id(*id),
        Component::ReturnError { id, .. } => open.own.with_id(*id),
        _ => None,
    };
    ours.map_or(0, |ours| ours.operation)
}

fn problem(component: &Component, open: Open) -> Option<u8> {
    match step6::weigh(component, open) {
        Ok(_) => None,
        Err(Fault::Problem(_, problem)) => Some(problem.octets()[1]),
        Err(_) => panic!("no fault of step 6"),
    }
}
