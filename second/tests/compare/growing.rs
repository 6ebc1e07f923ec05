//! Calls that are taken, by which a table grows: more invokes come than go.

use crate::call::{Call, Named};
use crate::carried::{self, asked, FACILITY, REGISTER};
use crate::chance::Chance;
use crate::components::one_of;
use crate::errors;
use crate::notation::octets;
use crate::tables::{self, new_id, open_one, owns_of, peers_of, OWN, PEER, PLACES};

pub fn call(c: &mut Chance, image: &[u8]) -> Call {
    let Some(named) = open_one(c, image, 0).filter(|_| !c.one_in(8)) else {
        return opening(c);
    };
    let entry = tables::entry(image, named.0, named.1);
    let (own, peers) = (owns_of(&entry), peers_of(&entry));
    let with_room = |side: &[tables::Invoke]| side.len() < PLACES;
    match c.below(8) {
        0..=2 if with_room(&peers) => {
            let id = new_id(c, &peers);
            Call::Receive(asked(named, id, None, c.pick(&PEER)))
        }
        3..=5 if with_room(&own) => {
            let operation = c.pick(&OWN);
            Call::Invoke(named, operation, new_id(c, &own) as i8, suited(operation))
        }
        6 if !own.is_empty() => cleared(named, one_of(c, &own)[0]),
        7 if !peers.is_empty() => answered(named, one_of(c, &peers)[0]),
        _ => Call::Receive(carried::sent(FACILITY, named, &[])),
    }
}

/// A new transaction of either side; the network's value may be open already.
fn opening(c: &mut Chance) -> Call {
    match c.flip() {
        true => Call::Begin(17, c.id() as i8, suited(17)),
        false => {
            let named = (0, c.below(7) as u8);
            Call::Receive(carried::sent(REGISTER, named, &[]))
        }
    }
}

/// A parameter that suits an invoke of ours.
pub fn suited(operation: u8) -> Vec<u8> {
    octets(match operation {
        11..=14 => "3003040111",
        17 => "040192",
        _ => "300604010F040141",
    })
}

/// systemFailure, which each of ours may return, and which we may return to each.
const SYSTEM_FAILURE: u8 = 34;

/// An error that clears one of ours.
pub fn cleared(named: Named, id: u8) -> Call {
    Call::Receive(errors::sent(FACILITY, named, id, SYSTEM_FAILURE, &[]))
}

/// An error of ours that answers one of the peer's.
pub fn answered(named: Named, id: u8) -> Call {
    Call::Error(named, id as i8, SYSTEM_FAILURE, Vec::new())
}
