//! Every code as the error to each operation that we begin, answer by answer.

use crate::carried::{FACILITY, RELEASE_COMPLETE};
use crate::codes::problem;
use crate::errors::sent;
use crate::notation::hex;
use crate::proved::compare;
use crate::tables::{self, OWN};
use second::bench::answers;

/// The id of the invoke that waits, and another.
const IDS: [u8; 2] = [1, 2];

/// Each error from a table of its own, and all the answers.
fn errors() -> (String, String) {
    let (mut input, mut expected) = (String::new(), String::new());
    for operation in OWN {
        let table = hex(&tables::named(&format!("own{operation}")));
        for code in 0..=255 {
            for kind in [FACILITY, RELEASE_COMPLETE] {
                for id in IDS {
                    let message = hex(&sent(kind, (1, 0), id, code, &[]));
                    input += &format!("table {table}\nreceive {message}\n");
                    expected += "table set\n\n";
                    expected += &answer(operation, kind, id, code);
                }
            }
        }
    }
    (input, expected)
}

fn answer(operation: u8, kind: u8, id: u8, code: u8) -> String {
    // "id, error problem 0" comes first.
    let problem = match id == IDS[0] {
        true => problem(operation, code),
        false => Some(0),
    };
    let verdict = match (kind, problem) {
        (RELEASE_COMPLETE, _) => "verdict 5 network released\n",
        (_, None) => "verdict 0 taken\n",
        (_, Some(_)) => "verdict 3 reject sent\n",
    };
    let more = match (kind, problem) {
        (_, None) => format!("error {id}\ncode {code}\n"),
        (RELEASE_COMPLETE, Some(_)) => String::new(),
        (_, Some(problem)) => {
            format!("reply 0B 2A 1C 08 A4 06 02 01 {id:02X} 83 01\n {problem:02X}\n")
        }
    };
    format!("{verdict}{more}\n")
}

#[test]
fn by_hand() {
    let (input, expected) = errors();
    assert!(answers(input.as_bytes()) == expected.as_bytes());
}

#[test]
fn proved() {
    let (input, expected) = errors();
    assert!(compare(input.as_bytes()) == expected.as_bytes());
}
