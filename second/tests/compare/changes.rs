//! Every one-octet change and every cut of sound messages of each kind.

use crate::both::compare_message;
use crate::notation::octets;
use crate::tables;

/// A table, a message that suits it, and its verdict.
const CORPUS: &[(&str, &str, u8)] = &[
    // Invokes of 60, 61, 18 and 38 in REGISTER, with and without more behind.
    ("fresh", "0B3B1C10A10E02010502013C300604010F040141", 0),
    ("fresh", "0B3B1C13A11102010502013C300904010F040141040102", 0),
    (
        "fresh",
        "0B3B1C10A10E0201FF02013D300604010F040141 7F0100",
        0,
    ),
    ("fresh", "6B3B1C0BA1090201070201120A0102 A1 100101", 0),
    ("fresh", "3B3B1C08A106020180020126 7F0100", 0),
    ("fresh", "0B3B1C00", 0),
    ("fresh", "0B3B1C07A4050500800100", 4),
    // In FACILITY.
    ("open", "0B3A10A10E02010502013C300604010F040141", 0),
    ("open", "0B3A10A10E02010502013D300604010F040141 4002FFFF", 0),
    ("own17", "8B3A0BA1090201070201120A0101", 0),
    ("own59", "8B3A08A106020107020126", 0),
    ("w1", "0B3A10A10E02010502013C300604010F040141", 3),
    ("open", "0B3A00", 0),
    // Linked invokes of 18.
    ("own17", "8B3A0EA10C0201078001010201120A0100", 0),
    ("own17", "8B3A11A10F0281010780010102820001120A0100", 0),
    // Results of 59, 17 and 10, with and without 30.
    ("own59", "8B3A05A203020101", 0),
    ("own59", "8B3A0AA208020101300302013B", 0),
    ("own59", "8B3A12A210020101300B02013B300604010F040141", 0),
    (
        "own59",
        "8B3A15A213020101300E02013B300904010F040141040102",
        0,
    ),
    ("own17", "8B3A10A20E02010130090201111204 31323334", 0),
    ("own17", "8B3A10A20E02010130090201111204 31323320", 3),
    ("own17", "8B3A12A210020101300B02011112820004 30393039", 0),
    ("own10", "8B3A05A203020101", 0),
    ("own10", "8B3A10A20E020101300902010A1204 20202020", 0),
    ("own10", "8B3A0CA20A020101300502010A1000", 0),
    ("own10", "8B3A0FA20D020101300802010AA003800101", 0),
    // Among others that wait, of ours and of the peer's.
    ("peers3", "0B3A10A10E02010902013C300604010F040141", 0),
    ("peers4", "0B3A10A10E02010902013C300604010F040141", 3),
    ("peers4", "0B3A08A106020107020126", 3),
    ("owns2", "8B3A0EA10C0201098001020201120A0100", 0),
    ("owns2", "8B3A0EA10C0201098001010201120A0100", 3),
    ("owns3", "8B3A12A210020102300B02013B300604010F040141", 0),
    ("owns4", "8B3A05A203020104", 0),
    ("eight", "8B3A10A20E02010130090201111204 31323334", 0),
    ("eight", "8B3A08A306020103020122", 0),
    ("eight", "8B2A1C08A306020102020147", 5),
    // Errors of the operation's list and of another's, and Rejects.
    ("own59", "8B3A08A306020101020147", 0),
    ("own59", "8B3A08A306020101020111", 3),
    ("own10", "8B3A0AA3080201010201140500", 0),
    ("own10", "8B3A0AA3080201010201470500", 3),
    ("own59", "8B3A08A406020101820102", 4),
    ("open", "0B3A07A4050500800100", 4),
    ("open", "0B3A08A4060581008001FF", 4),
    // RELEASE COMPLETE.
    ("own59", "8B2A", 5),
    ("own59", "8B2A0802E09D", 5),
    ("own59", "8B2A0802E09D1C05A203020101", 5),
    (
        "own59",
        "8B2A1C12A210020101300B02013B300604010F0401410802E090",
        5,
    ),
    ("own59", "8B2A A1 0F0100 080101 1C08A306020101020109 08", 5),
    ("own12", "8B2A A1 0F0100 080101 1C08A306020101020113 08", 5),
    ("own59", "8B2A1C08A406020101820102 A1 7F09", 5),
    ("own17", "8B2A1C10A20E02010130090201111204 31323334", 5),
    ("own17", "8B2A1C10A20E02010130090201111204 31323320", 5),
    ("w1", "0B2A0802E09D1C10A10E02010502013C300604010F040141", 5),
    // Long forms everywhere.
    ("open", "0B3A11 A182000D 02810105 0282000112 0A810101", 0),
    (
        "open",
        "0B3A1E A182001A 02810105 028200013C 3082000D 048200010F 0481054142434445",
        0,
    ),
    (
        "own59",
        "8B3A1C A28119 0282000101 308111 0281013B 30820009 0481010F 0482000141",
        0,
    ),
    // Long strings: messages of 140, 144, 182, 184 and 255 octets.
    (
        "fresh",
        "0B3B1C88A18185020105 02013C307D04010F0478 text(120)",
        0,
    ),
    (
        "fresh",
        "0B3B1C8CA18189020105 02013C30818004010F0478 text(120) 040102",
        0,
    ),
    (
        "fresh",
        "0B3B1CB2A181AF020105 02013C3081A604010F0481A0 text(160)",
        0,
    ),
    (
        "own59",
        "8B3AB5A281B20201013081AC02013B3081A604010F0481A0 text(160)",
        0,
    ),
    (
        "fresh",
        "0B3B1CFBA181F8020105 02013C3081EF04010F0481A0 text(160) 0447 zeros(71)",
        0,
    ),
];

#[test]
fn corpus_is_sound() {
    for (table, message, verdict) in CORPUS {
        let facts = compare_message(&tables::named(table), &octets(message), 300);
        if facts.code() != *verdict {
            println!("| {}: {}", &message[..24.min(message.len())], facts.code());
        }
        assert_eq!(facts.code(), *verdict);
    }
}

#[test]
fn cuts() {
    for (table, message, _) in CORPUS {
        let (table, message) = (tables::named(table), octets(message));
        for end in 0..=message.len() {
            compare_message(&table, &message[..end], 12 + end % 7);
        }
    }
}

#[test]
fn changes_of_short_ones() {
    change(|message| message.len() < 100);
}

#[test]
fn changes_of_long_ones() {
    change(|message| message.len() >= 100);
}

fn change(is_wanted: impl Fn(&[u8]) -> bool) {
    for (table, message, _) in CORPUS {
        let (table, message) = (tables::named(table), octets(message));
        if !is_wanted(&message) {
            continue;
        }
        for at in 0..message.len() {
            for octet in 0..=255 {
                let mut changed = message.clone();
                changed[at] = octet;
                compare_message(&table, &changed, 12 + usize::from(octet % 16));
            }
        }
    }
}

/// Each message of the corpus from each of the tables.
#[test]
fn corpus_from_every_table() {
    let names = [
        "fresh", "w1", "open", "peer61", "peer18", "own59", "own17", "own10", "own11", "own12",
        "own13", "own14", "ownopen", "both17", "other17", "full", "damaged", "short", "crowded",
        "owns2", "owns3", "owns4", "peers2", "peers3", "peers4", "eight", "apart",
    ];
    for table in names.map(tables::named) {
        for (_, message, _) in CORPUS {
            let mut message = octets(message);
            for head in 0..=255 {
                message[0] = head;
                compare_message(&table, &message, 12);
            }
        }
    }
}
