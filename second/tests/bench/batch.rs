//! Batches: answers made by hand, and many by chance.

use crate::chance::Chance;
use crate::damage;
use crate::notation::hex;
use crate::proved::compare;
use crate::reading::{lines, Line};
use crate::records::{conversation, records, spoiled};
use crate::tables;
use crate::writing;
use second::batch::SLOT;
use second::bench::answers;

const BATCHES: usize = 400;

const W1: &str = "14 0B3B1C10A10E02010502013C300604010F040141";
const W3: &str = "13 0B3A10A10E02010502013C300604010F040141";

const SIX_ANSWER: &str = "\
done 0
slots 1
verdict 2 cause sent
reply 1B 2A 08 02 E0 D1

";

const REFUSED_28: &str = "refused 28 table damaged\n\n";
const REFUSED_30: &str = "refused 30 bad record\n\n";
const REFUSED_31: &str = "refused 31 output too short\n\n";
const NO_SLOTS: &str = "done 0\nslots 0\n\n";

/// Lines, and their answers.
fn worked() -> Vec<(Vec<String>, Vec<String>)> {
    let own = |texts: &[&str]| texts.iter().map(|text| text.to_string()).collect();
    let worked = |lines: &[&str], answers: &[&str]| (own(lines), own(answers));
    let ignored = |count: usize| {
        let slots = "verdict 1 ignored\n".repeat(count);
        format!("done 0\nslots {count}\n{slots}\n")
    };
    let ones = |count: usize| format!("batch {}", "01 0B ".repeat(count));
    vec![
        // The example of the readings.
        worked(
            &["batch 03 9B 3A 00 01 0B"],
            &["\
done 0
slots 2
verdict 2 cause sent
reply 1B 2A 08 02 E0 D1
verdict 1 ignored

"],
        ),
        // No records, whatever room there is.
        worked(
            &[
                "batch",
                " batch\t",
                "buffer 0",
                "batch",
                "buffer 13",
                "batch",
            ],
            &[
                NO_SLOTS,
                NO_SLOTS,
                "buffer 0\n\n",
                NO_SLOTS,
                "buffer 13\n\n",
                NO_SLOTS,
            ],
        ),
        // Zero and cut records, the last one too; before 31.
        worked(
            &[
                "batch 00",
                "batch 01",
                "batch 03 0B 3C",
                "batch 039B3A00 00",
                "batch 00 039B3A00",
                "batch 039B3A00 02 0B",
                "buffer 0",
                "batch 039B3A00 00",
                "batch 039B3A00",
            ],
            &[
                REFUSED_30,
                REFUSED_30,
                REFUSED_30,
                REFUSED_30,
                REFUSED_30,
                REFUSED_30,
                "buffer 0\n\n",
                REFUSED_30,
                REFUSED_31,
            ],
        ),
        // Output too short, and long enough.
        worked(
            &["buffer 13", "batch 039B3A00", "buffer 14", "batch 039B3A00"],
            &["buffer 13\n\n", REFUSED_31, "buffer 14\n\n", SIX_ANSWER],
        ),
        worked(
            &[
                "buffer 27",
                "batch 039B3A00 020B3C",
                "buffer 28",
                "batch 039B3A00 020B3C",
            ],
            &[
                "buffer 27\n\n",
                REFUSED_31,
                "buffer 28\n\n",
                "\
done 0
slots 2
verdict 2 cause sent
reply 1B 2A 08 02 E0 D1
verdict 2 cause sent
reply 8B 2A 08 02 E0 E1

",
            ],
        ),
        // "255 octets have room for 18 slots", 300 for 21.
        worked(
            &[&ones(18), &ones(19), "buffer 300", &ones(21), &ones(22)],
            &[
                &ignored(18),
                REFUSED_31,
                "buffer 300\n\n",
                &ignored(21),
                REFUSED_31,
            ],
        ),
        // A damaged table comes first.
        worked(
            &[
                "table 00",
                "batch",
                "batch 00",
                "buffer 0",
                "batch 039B3A00",
                "table",
            ],
            &[
                "table set\n\n",
                REFUSED_28,
                REFUSED_28,
                "buffer 0\n\n",
                REFUSED_28,
                "table 00\n\n",
            ],
        ),
        // W1 and W3: a reply of twelve octets, and nothing is open any more.
        worked(
            &[&format!("batch {W1} {W3}"), "release 0 0"],
            &[
                "\
done 0
slots 2
verdict 0 taken
verdict 3 reject sent
reply 8B 2A 1C 08 A4 06 02 01 05 81 01
 00

",
                "refused 22 not open\n\n",
            ],
        ),
        // W1 alone: its menu waits, and is answered. A refused batch leaves it so.
        worked(
            &[
                &format!("batch {W1}"),
                &format!("batch {W3} 00"),
                "result 0 0 5",
            ],
            &[
                "done 0\nslots 1\nverdict 0 taken\n\n",
                REFUSED_30,
                "done 0\nmessage 8B 3A 05 A2 03 02 01 05\n\n",
            ],
        ),
        // Every verdict; a short reply behind a long one.
        worked(
            &[
                "batch 040B3B1C00 050B3A02A500 031B3A00 041B3B1C00 0A1B3A07A4050500800100 \
               042B3B1C00 022B2A 020000 01 0B 0100",
            ],
            &["\
done 0
slots 10
verdict 0 taken
verdict 3 reject sent
reply 8B 2A 1C 07 A4 05 05 00 80 01 00
verdict 2 cause sent
reply 9B 2A 08 02 E0 D1
verdict 0 taken
verdict 4 reject received
reply 9B 2A
verdict 0 taken
verdict 5 network released
verdict 7 other protocol
verdict 1 ignored
verdict 1 ignored

"],
        ),
        // What isn't understood.
        worked(
            &[
                "batch 039B3A0",
                "batch 0x",
                "Batch",
                "batches",
                "batch 1 0",
                "batch 01 0B #",
            ],
            &[
                "line 1 not understood\n\n",
                "line 2 not understood\n\n",
                "line 3 not understood\n\n",
                "line 4 not understood\n\n",
                "line 5 not understood\n\n",
                "line 6 not understood\n\n",
            ],
        ),
    ]
}

#[test]
fn by_hand() {
    for (lines, expected) in worked() {
        let given = answers(lines.join("\n").as_bytes());
        assert_eq!(String::from_utf8_lossy(&given), expected.concat());
    }
}

#[test]
fn proved() {
    for (lines, expected) in worked() {
        let given = compare(lines.join("\n").as_bytes());
        assert_eq!(String::from_utf8_lossy(&given), expected.concat());
    }
}

/// Each from a table and with a buffer of its own, and the table behind it.
#[test]
fn by_chance() {
    let mut c = Chance::new(91);
    let mut input = Vec::new();
    for _ in 0..BATCHES {
        let table = tables::random(&mut c);
        let count = c.pick(&[0, 1, 2, 3, 4, 5, 6, 18, 21]);
        let messages = conversation(&mut c, &table, count);
        let slice = match c.one_in(3) {
            true => spoiled(&mut c, &messages),
            false => records(&messages),
        };
        let image = match c.one_in(8) {
            true => damage::damaged(&mut c, &table).0,
            false => table,
        };
        let room = match c.below(3) {
            0 => (SLOT * count + c.below(3)).saturating_sub(1),
            1 => c.below(301),
            _ => 300,
        };
        input.extend(format!("table {}\nbuffer {room}\n", hex(&image)).into_bytes());
        input.extend(writing::batch(&mut c, &slice));
        input.extend(b"\ntable\n");
    }
    let output = compare(&input);
    for wanted in ["done 0", REFUSED_28, REFUSED_30, REFUSED_31] {
        let wanted = Line::Own(wanted.trim_end().as_bytes());
        let times = lines(&output)
            .iter()
            .filter(|line| **line == wanted)
            .count();
        println!("{wanted:?}: {times}");
        assert!(times > BATCHES / 20);
    }
}
