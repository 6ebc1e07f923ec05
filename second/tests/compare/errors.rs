//! Return errors that are received: their messages, and what becomes of them.

use crate::call::Named;
use crate::carried::{self, Weighed, FACILITY, RELEASE_COMPLETE};
use crate::met::Met;
use crate::tables::OWN;
use second::component::Component;

/// An error is shown, where else the number of its problem stands.
const SHOWN: u8 = 0xA3;

/// What must occur: shown and each problem in each kind of message, and for each
/// operation that we begin an error shown and problem 3.
pub const MET: [(&str, &[u8]); 5] = [
    ("register error", &[0]),
    ("facility error", &[0, 2, 3, SHOWN]),
    ("release error", &[0, 2, 3, SHOWN]),
    ("error shown to", &OWN),
    ("problem 3 to", &OWN),
];

/// A message of this kind that brings an error, with these octets behind its code.
pub fn sent(kind: u8, named: Named, id: u8, code: u8, behind: &[u8]) -> Vec<u8> {
    let places = [&[0x02, 0x01, id, 0x02, 0x01, code], behind].concat();
    let component = [vec![0xA3, places.len() as u8], places].concat();
    carried::sent(kind, named, &component)
}

/// What the component meets, of the above.
pub fn met(weighed: &Weighed) -> Vec<Met> {
    let Component::ReturnError { .. } = weighed.component else {
        return Vec::new();
    };
    let place = match weighed.kind {
        RELEASE_COMPLETE => "release error",
        FACILITY => "facility error",
        _ => "register error",
    };
    match weighed.problem {
        None => vec![(place, SHOWN), ("error shown to", weighed.operation)],
        Some(3) => vec![(place, 3), ("problem 3 to", weighed.operation)],
        Some(other) => vec![(place, other)],
    }
}
