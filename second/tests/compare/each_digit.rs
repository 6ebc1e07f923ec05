//! Every octet at each place of a Password: of one that we write, of one that we read,
//! and of what has its tag and is none.

use crate::both::{compare, compare_message, pattern, Call};
use crate::carried::{FACILITY, RELEASE_COMPLETE};
use crate::errors;
use crate::notation::octets;
use crate::parameters::shortest;
use crate::passwords::sent;
use crate::tables::{self, OWN};
use second::ffi::{Component, Received, Span};

/// The length 4 in each form.
const FOUR: [&[u8]; 3] = [&[0x04], &[0x81, 0x04], &[0x82, 0x00, 0x04]];
const DIGITS: [u8; 4] = *b"0918";

/// Four digits with each octet at each place, and whether it is a digit too.
fn each(mut run: impl FnMut(&[u8], bool)) {
    for four in FOUR {
        for place in 0..4 {
            for octet in 0..=255 {
                let mut digits = DIGITS;
                digits[place] = octet;
                let password = [&[0x12], four, &digits].concat();
                run(&password, b"0123456789".contains(&octet));
            }
        }
    }
}

/// "25 now covers it", and comes before 27.
#[test]
fn that_we_write() {
    let table = tables::named("peer18");
    each(|password, is_digit| {
        let call = Call::Result((0, 0), 5, password.to_vec());
        let message = sent(FACILITY, (1, 0), 5, 18, password);
        for room in [0, 18, 19, 20, 21, 300] {
            let facts = compare(&table, &call, room);
            let wanted = match (is_digit, message.len() <= room) {
                (false, _) => (25, &[][..], "peer18"),
                (true, false) => (27, &[][..], "peer18"),
                (true, true) => (0, &message[..], "open"),
            };
            let given = (facts.code(), facts.reply(), &facts.table);
            assert_eq!(given, (wanted.0, wanted.1, &tables::named(wanted.2)));
            let written = wanted.1.len();
            assert_eq!(facts.buffer[written..], pattern(room)[written..]);
        }
    });
}

/// "result problem 2"
#[test]
fn in_facility() {
    read(FACILITY, |is_digit| match is_digit {
        true => (0, "none", "ownopen"),
        false => (3, "0B2A1C08A406020101820102", "fresh"),
    });
}

/// "always with verdict 5; on a fault ... nothing is shown"
#[test]
fn in_release_complete() {
    read(RELEASE_COMPLETE, |_| (5, "none", "fresh"));
}

/// Results of 17, with the verdict, the reply and the table of each.
fn read(kind: u8, wanted: impl Fn(bool) -> (u8, &'static str, &'static str)) {
    let table = tables::named("own17");
    each(|password, is_digit| {
        let message = sent(kind, (1, 0), 1, 17, password);
        let facts = compare_message(&table, &message, 12);
        let (code, reply, after) = wanted(is_digit);
        let received = Received {
            code,
            written: octets(reply).len(),
            shown: match is_digit {
                true => shown(password.len(), message.len()),
                false => Component::default(),
            },
            ..Received::default()
        };
        assert_eq!(facts.received, received);
        assert_eq!(facts.reply(), octets(reply));
        assert_eq!(facts.table, tables::named(after));
    });
}

/// The result, its parameter the last octets of the message.
fn shown(length: usize, end: usize) -> Component {
    Component {
        kind: 0xA2,
        has_id: 1,
        id: 1,
        has_operation: 1,
        operation: 17,
        parameter: Span {
            start: end - length,
            end,
        },
        ..Component::default()
    }
}

/// "length 4": digits of any other number; 25 comes before 26 too.
#[test]
fn of_other_lengths() {
    for count in (0..=300).filter(|count| *count != 4) {
        let password = [vec![0x12], shortest(count), vec![0x30; count]].concat();
        let call = Call::Result((0, 0), 5, password.clone());
        for room in [0, 300] {
            assert_eq!(compare(&tables::named("peer18"), &call, room).code(), 25);
        }
        if count <= 100 {
            let message = sent(FACILITY, (1, 0), 1, 17, &password);
            let facts = compare_message(&tables::named("own17"), &message, 12);
            assert_eq!(facts.code(), 3);
        }
    }
}

/// "any one element": results of 10 to 14, and errors to each operation.
#[test]
fn that_is_none_received() {
    let check = |operation: u8, message: &[u8], kind: u8| {
        let table = tables::named(&format!("own{operation}"));
        let facts = compare_message(&table, message, 12);
        let verdict = if message[1] == FACILITY { 0 } else { 5 };
        let given = (facts.code(), facts.received.shown.kind);
        assert_eq!(given, (verdict, kind));
    };
    for kind in [FACILITY, RELEASE_COMPLETE] {
        each(|element, _| {
            for operation in 10..=14 {
                let message = sent(kind, (1, 0), 1, operation, element);
                check(operation, &message, 0xA2);
            }
            for operation in OWN {
                let message = errors::sent(kind, (1, 0), 1, 34, element);
                check(operation, &message, 0xA3);
            }
        });
    }
}

/// The same for the argument of registerSS and for our errors.
#[test]
fn that_is_none_written() {
    each(|element, _| {
        let calls = [
            ("fresh", Call::Begin(10, 1, element.to_vec())),
            ("open", Call::Invoke((0, 0), 10, 1, element.to_vec())),
            ("peer18", Call::Error((0, 0), 5, 34, element.to_vec())),
            ("w1", Call::Error((0, 0), 5, 34, element.to_vec())),
            ("peer61", Call::Error((0, 0), 5, 34, element.to_vec())),
        ];
        for (table, call) in calls {
            assert_eq!(compare(&tables::named(table), &call, 300).code(), 0);
        }
    });
}
