//! What calls meet beyond their codes, and what they must.

use crate::call::Call;
use crate::carried::Weighed;
use crate::damage;
use crate::errors;
use crate::passwords;
use crate::waiting;

/// A name and a number of it.
pub type Met = (&'static str, u8);

/// What must occur, the numbers of each name.
pub fn named() -> impl Iterator<Item = (&'static str, &'static [u8])> {
    let passwords = passwords::OFTEN.into_iter().chain(passwords::MET);
    let waiting = waiting::MET.into_iter().chain(damage::MET);
    errors::MET.into_iter().chain(passwords).chain(waiting)
}

/// What the call meets, of the above, from this table and a buffer of this length.
pub fn met(table: &[u8], call: &Call, room: usize) -> Vec<Met> {
    let mut met = waiting::closed(table, call, room);
    match call {
        Call::Receive(message) => {
            if let Some(weighed) = Weighed::of(table, message, room) {
                met.extend(errors::met(&weighed));
                met.extend(passwords::received(&weighed));
                met.extend(waiting::received(&weighed));
            }
        }
        _ => {
            met.extend(passwords::written(table, call, room));
            met.extend(waiting::called(table, call, room));
        }
    }
    met
}
