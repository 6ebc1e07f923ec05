//! What is rare by chance, made on purpose.

use crate::call::{Call, Named};
use crate::carried::{asked, FACILITY, RELEASE_COMPLETE};
use crate::chance::Chance;
use crate::codes;
use crate::components::{near, one_of};
use crate::errors;
use crate::notation::any;
use crate::parameters as p;
use crate::passwords;
use crate::tables::{self, new_id, open, put, Invoke, CLOSED, OWN, PEER, PLACES};

/// A rare call; the image is changed where the call needs it, and stays sound.
pub fn call(c: &mut Chance, image: &mut [u8]) -> Call {
    let named = (c.below(2) as u8, c.below(7) as u8);
    match c.below(34) {
        0..=3 => linked(c, image, named),
        4 => linked_to_none(c, image, named),
        5 => eighth(c, image),
        6 => too_long(c, image, named),
        7 => unlisted(c, image, named),
        8..=11 => listed(c, image, named),
        12 => released(c, image, named),
        13..=14 => asked_for(c, image, named),
        15..=19 => registered(c, image, named),
        20..=21 => no_password(c, image, named),
        22 => returned(c, image, named),
        23..=24 => another(c, image, named),
        25 => asked_again(c, image, named),
        26..=28 => fifth(c, image, named),
        29 => ours_again(c, image, named),
        30..=32 => answered(c, image, named),
        _ => closed(c, image, named),
    }
}

fn head((flag, value): Named) -> u8 {
    flag << 7 | value << 4 | 0x0B
}

/// One to four invokes of these operations, and the place of one of them: each of the
/// four as often as the others.
fn some(c: &mut Chance, operations: &[u8]) -> (Vec<Invoke>, usize) {
    let place = c.below(PLACES);
    let count = c.range(place + 1, PLACES);
    (tables::side(c, operations, count), place)
}

/// An Invoke linked to one of ours: a getPassword to a registerPassword, or another
/// operation on one side or on both.
fn linked(c: &mut Chance, image: &mut [u8], named: Named) -> Call {
    let (mut own, place) = some(c, &OWN);
    if !c.one_in(4) {
        own[place][1] = 17;
    }
    let linked = own[place][0];
    linked_to(c, image, named, &own, linked)
}

/// An Invoke linked to none of ours, however many wait.
fn linked_to_none(c: &mut Chance, image: &mut [u8], named: Named) -> Call {
    let count = c.range(0, PLACES);
    let own = tables::side(c, &[17, 17, 59], count);
    let linked = match c.one_in(4) {
        true => 0,
        false => new_id(c, &own),
    };
    linked_to(c, image, named, &own, linked)
}

/// An Invoke with this linked id, beside up to three of the peer's.
fn linked_to(c: &mut Chance, image: &mut [u8], named: Named, own: &[Invoke], linked: u8) -> Call {
    let count = c.below(PLACES);
    let peers = tables::side(c, &PEER, count);
    put(image, named, open(own, &peers));
    let operation = c.pick(&[18, 18, 18, 38, 60, 61]);
    let id = new_id(c, &peers);
    Call::Receive(asked(named, id, Some(linked), operation))
}

/// A begin while all own values are open.
fn eighth(c: &mut Chance, image: &mut [u8]) -> Call {
    for value in 0..7 {
        if tables::entry(image, 1, value)[0] == 0 {
            put(image, (1, value), open(&[], &[]));
        }
    }
    let operation = c.pick(&OWN);
    let id = c.id() as i8;
    Call::Begin(operation, id, p::of_invoke(c, operation))
}

/// A parameter that suits, with which the message has 255 octets or more, mostly.
fn too_long(c: &mut Chance, image: &mut [u8], named: Named) -> Call {
    let parameter = any(c.range(239, 260));
    with_any_element(c, image, named, parameter)
}

/// A call whose parameter may be any one element.
fn with_any_element(c: &mut Chance, image: &mut [u8], named: Named, parameter: Vec<u8>) -> Call {
    match c.below(3) {
        0 => {
            put(image, (1, named.1), CLOSED);
            Call::Begin(10, c.id() as i8, parameter)
        }
        1 => {
            let count = c.below(PLACES);
            let own = tables::side(c, &OWN, count);
            put(image, named, open(&own, &[]));
            Call::Invoke(named, 10, new_id(c, &own) as i8, parameter)
        }
        _ => {
            let (peers, place) = some(c, &PEER);
            put(image, named, open(&[], &peers));
            Call::Error(named, peers[place][0] as i8, 1, parameter)
        }
    }
}

/// An error for one of ours, of any code, few of which are listed.
fn unlisted(c: &mut Chance, image: &mut [u8], named: Named) -> Call {
    let (own, place) = some(c, &OWN);
    put(image, named, open(&own, &[]));
    Call::Receive(errors::sent(FACILITY, named, own[place][0], c.octet(), &[]))
}

/// An error that one of ours may return, or one that it may not, or of any code; its
/// id now and then another; mostly in a release.
fn listed(c: &mut Chance, image: &mut [u8], named: Named) -> Call {
    let (own, place) = some(c, &OWN);
    put(image, named, open(&own, &tables::peers(c)));
    let [id, operation] = own[place];
    let code = match c.below(3) {
        0 => codes::listed(c, operation, true),
        1 => codes::listed(c, operation, false),
        _ => c.octet(),
    };
    let kind = c.pick(&[FACILITY, RELEASE_COMPLETE, RELEASE_COMPLETE]);
    Call::Receive(errors::sent(kind, named, near(c, id), code, &[]))
}

/// A release with a cause, which is empty in every other.
fn released(c: &mut Chance, image: &mut [u8], named: Named) -> Call {
    put(image, named, open(&[], &[]));
    let length = c.pick(&[0, 0, 0, 1, 2, 3]);
    let mut message = vec![head(named), 0x2A, 0x08, length as u8];
    message.extend(c.octets(length));
    Call::Receive(message)
}

/// The Password for one of the peer's that is a getPassword, or nearly one.
fn asked_for(c: &mut Chance, image: &mut [u8], named: Named) -> Call {
    let (mut peers, place) = some(c, &PEER);
    peers[place][1] = 18;
    put(image, named, open(&tables::owns(c), &peers));
    Call::Result(named, near(c, peers[place][0]) as i8, p::password(c))
}

/// The result of one of ours that is a registerPassword; its id now and then another.
fn registered(c: &mut Chance, image: &mut [u8], named: Named) -> Call {
    let (mut own, place) = some(c, &OWN);
    own[place][1] = 17;
    put(image, named, open(&own, &tables::peers(c)));
    let kind = c.pick(&[FACILITY, RELEASE_COMPLETE]);
    let password = p::password(c);
    let id = near(c, own[place][0]);
    Call::Receive(passwords::sent(kind, named, id, 17, &password))
}

/// A Password's tag, mostly without four digits, where any one element may stand.
fn no_password(c: &mut Chance, image: &mut [u8], named: Named) -> Call {
    let parameter = p::near_password(c);
    let kind = c.pick(&[FACILITY, RELEASE_COMPLETE]);
    let (mut own, place) = some(c, &OWN);
    match c.below(8) {
        0..=1 => with_any_element(c, image, named, parameter),
        2 => {
            put(image, named, open(&own, &[]));
            Call::Receive(errors::sent(kind, named, own[place][0], 34, &parameter))
        }
        _ => {
            let operation = c.range(10, 14) as u8;
            own[place][1] = operation;
            put(image, named, open(&own, &[]));
            let id = own[place][0];
            Call::Receive(passwords::sent(kind, named, id, operation, &parameter))
        }
    }
}

/// A result or an error that one of ours takes, in either kind of message; or with an
/// id of the peer's alone.
fn returned(c: &mut Chance, image: &mut [u8], named: Named) -> Call {
    let (own, place) = some(c, &[10, 11, 12, 13, 14, 59]);
    let peers = tables::peers(c);
    put(image, named, open(&own, &peers));
    let [id, operation] = own[place];
    let id = match c.one_in(4) {
        true => one_of(c, &peers)[0],
        false => id,
    };
    let kind = c.pick(&[FACILITY, RELEASE_COMPLETE]);
    Call::Receive(match c.flip() {
        true => passwords::sent(kind, named, id, operation, &[]),
        false => errors::sent(kind, named, id, 34, &[]),
    })
}

/// A result or an error under the id of one of ours, with the operation of another of
/// them, or a code that only the other may return.
fn another(c: &mut Chance, image: &mut [u8], named: Named) -> Call {
    // Each with another operation, and a code of its list that the first's hasn't.
    let (operation, others, code) =
        c.pick(&[(59, 17, 37), (17, 59, 71), (11, 14, 18), (14, 12, 19)]);
    let place = c.below(PLACES);
    let other = (place + c.range(1, PLACES - 1)) % PLACES;
    let count = c.range(place.max(other) + 1, PLACES);
    let mut own = tables::side(c, &OWN, count);
    own[place][1] = operation;
    own[other][1] = others;
    put(image, named, open(&own, &tables::peers(c)));
    let id = own[place][0];
    Call::Receive(match c.flip() {
        true => passwords::sent(FACILITY, named, id, others, &[]),
        false => errors::sent(FACILITY, named, id, code, &[]),
    })
}

/// "equal to any waiting peer id", whatever the operation.
fn asked_again(c: &mut Chance, image: &mut [u8], named: Named) -> Call {
    let (peers, place) = some(c, &PEER);
    put(image, named, open(&tables::owns(c), &peers));
    let operation = c.pick(&[18, 38, 60, 61, 99]);
    Call::Receive(asked(named, peers[place][0], None, operation))
}

/// An Invoke with a new id, or one of ours, beside any number of the peer's, mostly
/// four.
fn fifth(c: &mut Chance, image: &mut [u8], named: Named) -> Call {
    let own = tables::owns(c);
    let count = c.pick(&[0, 1, 2, 2, 3, 3, 4, 4, 4, 4]);
    let peers = tables::side(c, &PEER, count);
    put(image, named, open(&own, &peers));
    let id = match c.one_in(4) {
        true => one_of(c, &own)[0],
        false => new_id(c, &peers),
    };
    let operation = c.pick(&[18, 38, 38, 60, 61, 99, 99]);
    Call::Receive(asked(named, id, None, operation))
}

/// An invoke of ours with an id that is among ours, at any place; or with a new one,
/// where four wait or fewer.
fn ours_again(c: &mut Chance, image: &mut [u8], named: Named) -> Call {
    let (own, place) = some(c, &OWN);
    let peers = tables::peers(c);
    put(image, named, open(&own, &peers));
    let id = match c.below(4) {
        0..=1 => own[place][0],
        2 => new_id(c, &own),
        _ => one_of(c, &peers)[0],
    };
    let operation = c.pick(&OWN);
    Call::Invoke(named, operation, id as i8, p::of_invoke(c, operation))
}

/// A result or an error to one of the peer's, at any place; now and then under an id
/// of ours, or one that none has.
fn answered(c: &mut Chance, image: &mut [u8], named: Named) -> Call {
    let (peers, place) = some(c, &PEER);
    let (own, our_place) = some(c, &OWN);
    put(image, named, open(&own, &peers));
    let [id, operation] = peers[place];
    let id = match c.below(8) {
        0..=1 => own[our_place][0],
        2 => new_id(c, &peers),
        _ => id,
    } as i8;
    match c.flip() {
        true => Call::Error(named, id, 34, Vec::new()),
        false if operation == 18 => Call::Result(named, id, b"\x12\x040931".to_vec()),
        false => Call::Result(named, id, Vec::new()),
    }
}

/// "closes the entry with whatever waits": a release of either side, or a fault.
fn closed(c: &mut Chance, image: &mut [u8], named: Named) -> Call {
    let (count, others) = (c.range(2, PLACES), c.range(2, PLACES));
    let own = tables::side(c, &OWN, count);
    let peers = tables::side(c, &PEER, others);
    put(image, named, open(&own, &peers));
    match c.below(4) {
        0 => Call::Release(named),
        1 => Call::Receive(vec![head(named), RELEASE_COMPLETE]),
        2 => Call::Receive(vec![head(named), 0x3C]),
        _ => {
            let id = new_id(c, &own);
            Call::Receive(passwords::sent(FACILITY, named, id, 59, &[]))
        }
    }
}
