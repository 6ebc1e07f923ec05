//! The layout of a received message (001 clauses 2 and 3).

use crate::part::Part;

pub const DISCRIMINATOR: u8 = 11;
pub const LONGEST: usize = 255;
pub const FACILITY_IDENTIFIER: u8 = 0x1C;
pub const CAUSE_IDENTIFIER: u8 = 0x08;

/// "Octet 2, compared whole."
#[derive(Clone, Copy, Debug, PartialEq, Eq)]
pub enum Type {
    ReleaseComplete,
    Facility,
    Register,
    Unknown,
}

impl Type {
    pub fn of(octet: u8) -> Type {
        match octet {
            0x2A => Type::ReleaseComplete,
            0x3A => Type::Facility,
            0x3B => Type::Register,
            _ => Type::Unknown,
        }
    }
}

/// An information element behind the mandatory part.
#[derive(Clone, Debug, PartialEq, Eq)]
pub struct Information {
    pub identifier: u8,
    /// None if it is cut short.
    pub value: Option<Part>,
}

/// What a RELEASE COMPLETE holds.
#[derive(Clone, Debug, PartialEq, Eq)]
pub struct Release {
    pub cause: Option<Part>,
    pub facility: Option<Part>,
}

/// "element 1C, length, Facility value": the value, or none if "missing or cut,
/// or the comprehension rule".
pub fn register(message: &Part) -> Option<Part> {
    match message.octets.get(2) {
        Some(&FACILITY_IDENTIFIER) => understood(message, 3),
        _ => None,
    }
}

/// "length, Facility value, no 1C"
pub fn facility(message: &Part) -> Option<Part> {
    understood(message, 2)
}

/// "the first whole 08 and first whole 1C are taken, the rest is passed over"
pub fn release(message: &Part) -> Release {
    let scanned = scan(message, 2);
    let first = |identifier| {
        let mut whole = scanned.iter().filter(|i| i.identifier == identifier);
        whole.find_map(|i| i.value.clone())
    };
    Release {
        cause: first(CAUSE_IDENTIFIER),
        facility: first(FACILITY_IDENTIFIER),
    }
}

fn understood(message: &Part, at: usize) -> Option<Part> {
    let value = counted(message, at)?;
    let further = scan(message, value.end());
    // "an identifier from 00 to 0F is comprehension required and gives cause 96,
    // also when cut short"
    match further.iter().any(|i| i.identifier <= 0x0F) {
        true => None,
        false => Some(value),
    }
}

/// "length (one plain octet, 0 to 255, as the Facility's), value"
fn counted(message: &Part, at: usize) -> Option<Part> {
    let length = usize::from(*message.octets.get(at)?);
    message.cut(at + 1, at + 1 + length)
}

/// "further information elements are scanned to the end of the message";
/// "a cut one ends the scan", and is the last of the list.
fn scan(message: &Part, from: usize) -> Vec<Information> {
    let mut found = Vec::new();
    let mut at = from;
    while let Some(&identifier) = message.octets.get(at) {
        // "Identifier with top bit 1: one octet."
        let value = match identifier {
            0x80.. => message.cut(at + 1, at + 1),
            _ => counted(message, at + 1),
        };
        at = value.as_ref().map_or(message.octets.len(), Part::end);
        found.push(Information { identifier, value });
    }
    found
}
