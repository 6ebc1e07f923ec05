//! Answers made by hand: the worked messages of 01, and others.

use crate::proved::compare;
use second::bench::answers;

const W1: &str = "receive 0B 3B 1C 10 A1 0E 02 01 05 02 01 3C 30 06 04 01 0F 04 01 41";
const W1_ANSWER: &str = "\
verdict 0 taken
invoke 5
operation 60
parameter 30 06 04 01 0F 04 01 41
scheme 0F
string 41
lines 1
A
tail

";

const ERASE: &str = "begin 11 1 3003040111";
const ERASE_ANSWER: &str = "\
done 0
value 0
message 0B 3B 1C 0D A1 0B 02 01 01 02 01
 0B 30 03 04 01 11 7F 01 00

";

const REGISTER_PASSWORD: &str = "begin 17 1 040192";
const REGISTER_PASSWORD_ANSWER: &str = "\
done 0
value 0
message 0B 3B 1C 0B A1 09 02 01 01 02 01
 11 04 01 92 7F 01 00

";

/// The network's value 0 with 5:60, 6:18, 7:61 and 8:60.
const FOUR_WAIT: &str = "table \
    00000000000000000000000000000000000000000000000000000000000000000000 \
    00000000000000000000000000000000000000000000000000000000000000000000 \
    00000000000000000000000000000000000000000000000000000000000000000000 \
    0000000000000000000000000000000000050000000000000000053C0612073D083C \
    00000000000000000000000000000000000000000000000000000000000000000000 \
    00000000000000000000000000000000000000000000000000000000000000000000 \
    00000000000000000000000000000000000000000000000000000000000000000000";

const GET_PASSWORD_ANSWER: &str = "\
verdict 0 taken
invoke 5
operation 18
parameter 0A 01 00

";

/// Lines, and their answers.
const WORKED: &[(&[&str], &[&str])] = &[
    // W1
    (&[W1], &[W1_ANSWER]),
    // W2
    (
        &["receive 0B3B1C13A11102010502013C300904010F040141040102"],
        &["\
verdict 0 taken
invoke 5
operation 60
parameter 30 09 04 01 0F 04 01 41 04 01
 02
scheme 0F
string 41
lines 1
A
tail 04 01 02

"],
    ),
    // W1 with other strings: "hellohello", seven characters and a pad, forty-one spaces.
    (
        &[
            "receive 0B3B1C18A11602010502013C300E04010F0409E8329BFD4697D9EC37",
            "release 0 0",
            "receive 0B3B1C16A11402010502013C300C04010F0407C16030180C061B",
            "release 0 0",
            "receive 0B3B1C33A13102010502013C302904010F0424\
             20100804028140 20100804028140 20100804028140 20100804028140 20100804028140 20",
        ],
        &[
            "\
verdict 0 taken
invoke 5
operation 60
parameter 30 0E 04 01 0F 04 09 E8 32 9B
 FD 46 97 D9 EC 37
scheme 0F
string E8 32 9B FD 46 97 D9 EC 37
lines 1
hellohello
tail

",
            "done 0\nmessage 8B 2A\n\n",
            "\
verdict 0 taken
invoke 5
operation 60
parameter 30 0C 04 01 0F 04 07 C1 60 30
 18 0C 06 1B
scheme 0F
string C1 60 30 18 0C 06 1B
lines 1
AAAAAAA
tail

",
            "done 0\nmessage 8B 2A\n\n",
            "\
verdict 0 taken
invoke 5
operation 60
parameter 30 29 04 01 0F 04 24 20 10 08
 04 02 81 40 20 10 08 04 02 81 40 20 10
 08 04 02 81 40 20 10 08 04 02 81 40 20
 10 08 04 02 81 40 20
scheme 0F
string 20 10 08 04 02 81 40 20 10 08 04
 02 81 40 20 10 08 04 02 81 40 20 10 08
 04 02 81 40 20 10 08 04 02 81 40 20
lines 2
                                       \x20

tail

",
        ],
    ),
    // W1 with another scheme.
    (
        &["receive 0B3B1C10A10E02010502013C3006040144040141"],
        &["\
verdict 0 taken
invoke 5
operation 60
parameter 30 06 04 01 44 04 01 41
scheme 44
string 41
tail

"],
    ),
    // W3
    (
        &[W1, "receive 0B3A 10A10E02010502013C300604010F040141"],
        &[
            W1_ANSWER,
            "\
verdict 3 reject sent
reply 8B 2A 1C 08 A4 06 02 01 05 81 01
 00

",
        ],
    ),
    // W4
    (
        &[W1, "result 0 0 5 30 06 04 01 0F 04 01 31"],
        &[
            W1_ANSWER,
            "\
done 0
message 8B 3A 12 A2 10 02 01 05 30 0B 02
 01 3C 30 06 04 01 0F 04 01 31

",
        ],
    ),
    // W5
    (
        &["receive 9B3A00"],
        &["\
verdict 2 cause sent
reply 1B 2A 08 02 E0 D1

"],
    ),
    // W6
    (
        &["receive 0b3c"],
        &["\
verdict 2 cause sent
reply 8B 2A 08 02 E0 E1

"],
    ),
    // W7
    (
        &[W1, "receive 0B3A02A500"],
        &[
            W1_ANSWER,
            "\
verdict 3 reject sent
reply 8B 2A 1C 07 A4 05 05 00 80 01 00

",
        ],
    ),
    // W8
    (&["receive 7B 3B"], &["verdict 1 ignored\n\n"]),
    // W9
    (
        &["begin 59 1 300604010F040141"],
        &["\
done 0
value 0
message 0B 3B 1C 10 A1 0E 02 01 01 02 01
 3B 30 06 04 01 0F 04 01 41 7F 01 00

"],
    ),
    // W10
    (&["receive"], &["verdict 1 ignored\n\n"]),
    // A linked Invoke of 18, and its answer.
    (
        &[
            "begin 17 -3 040192",
            "receive 8B3A0EA10C0201078001FD0201120A0100",
            "result 1 0 7 1204 31323334",
        ],
        &[
            "\
done 0
value 0
message 0B 3B 1C 0B A1 09 02 01 FD 02 01
 11 04 01 92 7F 01 00

",
            "\
verdict 0 taken
invoke 7
linked -3
operation 18
parameter 0A 01 00

",
            "\
done 0
message 0B 3A 10 A2 0E 02 01 07 30 09 02
 01 12 12 04 31 32 33 34

",
        ],
    ),
    // A result without 30, an error, Rejects with an id and without.
    (
        &[
            "begin 10 1 0500",
            "receive 8B3A05A203020101",
            "invoke 1 0 10 -128 0500",
            "receive 8B3A0AA3080201800201110500",
            "receive 8B3A08A4060201FF8101FF",
            "receive 0B3B1C07A4050500800100",
        ],
        &[
            "\
done 0
value 0
message 0B 3B 1C 0A A1 08 02 01 01 02 01
 0A 05 00 7F 01 00

",
            "verdict 0 taken\nresult 1\n\n",
            "done 0\nmessage 0B 3A 0A A1 08 02 01 80 02 01 0A\n 05 00\n\n",
            "verdict 0 taken\nerror -128\ncode 17\nparameter 05 00\n\n",
            "verdict 4 reject received\nreject -1\nproblem 81 255\nreply 0B 2A\n\n",
            "verdict 4 reject received\nreject none\nproblem 80 0\nreply 8B 2A\n\n",
        ],
    ),
    // Errors to eraseSS: systemFailure, which it may return; ussd-Busy, which it may
    // not; another id; a code that isn't listed; a fault behind the code.
    (
        &[
            ERASE,
            "receive 8B3A08A306020101020122",
            "release 1 0",
            ERASE,
            "receive 8B3A08A306020101020148",
            ERASE,
            "receive 8B3A08A306020102020148",
            ERASE,
            "receive 8B3A08A306020101020102",
            ERASE,
            "receive 8B3A09A30702010102014805",
        ],
        &[
            ERASE_ANSWER,
            "verdict 0 taken\nerror 1\ncode 34\n\n",
            "done 0\nmessage 0B 2A\n\n",
            ERASE_ANSWER,
            "\
verdict 3 reject sent
reply 0B 2A 1C 08 A4 06 02 01 01 83 01
 03

",
            ERASE_ANSWER,
            "\
verdict 3 reject sent
reply 0B 2A 1C 08 A4 06 02 01 02 83 01
 00

",
            ERASE_ANSWER,
            "\
verdict 3 reject sent
reply 0B 2A 1C 08 A4 06 02 01 01 83 01
 02

",
            ERASE_ANSWER,
            "\
verdict 3 reject sent
reply 0B 2A 1C 08 A4 06 02 01 01 80 01
 02

",
        ],
    ),
    // The same two in RELEASE COMPLETE; ussd-Busy as our own error to W1.
    (
        &[
            ERASE,
            "receive 8B2A1C08A306020101020122",
            ERASE,
            "receive 8B2A1C08A306020101020148",
            W1,
            "error 0 0 5 72",
        ],
        &[
            ERASE_ANSWER,
            "verdict 5 network released\nerror 1\ncode 34\n\n",
            ERASE_ANSWER,
            "verdict 5 network released\n\n",
            W1_ANSWER,
            "done 0\nmessage 8B 3A 08 A3 06 02 01 05 02 01 48\n\n",
        ],
    ),
    // Passwords that we write: spaces, one space, 3A, spaces without room, digits, and
    // digits under a longer length.
    (
        &[
            "receive 0B3B1C0BA1090201050201120A0100",
            "result 0 0 5 120420202020",
            "result 0 0 5 120430313220",
            "result 0 0 5 12043031323A",
            "buffer 0",
            "result 0 0 5 120420202020",
            "buffer 255",
            "result 0 0 5 120430393039",
            "receive 0B3A0BA1090201050201120A0100",
            "result 0 0 5 12810431323334",
        ],
        &[
            GET_PASSWORD_ANSWER,
            "refused 25 wrong parameter\n\n",
            "refused 25 wrong parameter\n\n",
            "refused 25 wrong parameter\n\n",
            "buffer 0\n\n",
            "refused 25 wrong parameter\n\n",
            "buffer 255\n\n",
            "\
done 0
message 8B 3A 10 A2 0E 02 01 05 30 09 02
 01 12 12 04 30 39 30 39

",
            GET_PASSWORD_ANSWER,
            "\
done 0
message 8B 3A 11 A2 0F 02 01 05 30 0A 02
 01 12 12 81 04 31 32 33 34

",
        ],
    ),
    // Passwords that we read: with a space, with it in RELEASE COMPLETE, digits.
    (
        &[
            REGISTER_PASSWORD,
            "receive 8B3A10A20E0201013009020111120431323320",
            REGISTER_PASSWORD,
            "receive 8B2A1C10A20E0201013009020111120431323320",
            REGISTER_PASSWORD,
            "receive 8B3A10A20E0201013009020111120431323334",
        ],
        &[
            REGISTER_PASSWORD_ANSWER,
            "\
verdict 3 reject sent
reply 0B 2A 1C 08 A4 06 02 01 01 82 01
 02

",
            REGISTER_PASSWORD_ANSWER,
            "verdict 5 network released\n\n",
            REGISTER_PASSWORD_ANSWER,
            "\
verdict 0 taken
result 1
operation 17
parameter 12 04 31 32 33 34

",
        ],
    ),
    // Their tag where any one element may stand: for registerSS, from it, in an error.
    (
        &[
            "begin 10 1 120420202020",
            "receive 8B3A10A20E020101300902010A120420202020",
            "receive 0B3B1C0BA1090201050201120A0100",
            "error 0 0 5 34 120420202020",
        ],
        &[
            "\
done 0
value 0
message 0B 3B 1C 0E A1 0C 02 01 01 02 01
 0A 12 04 20 20 20 20 7F 01 00

",
            "\
verdict 0 taken
result 1
operation 10
parameter 12 04 20 20 20 20

",
            GET_PASSWORD_ANSWER,
            "\
done 0
message 8B 3A 0E A3 0C 02 01 05 02 01 22
 12 04 20 20 20 20

",
        ],
    ),
    // Causes, with octets and without; a text in a release.
    (
        &[
            "begin 59 1 300604010F040141",
            "receive 8B2A0802E09D1C12A210020101300B02013B300604010F040141",
            "receive 0B3B1C00",
            "receive 0B2A0800",
        ],
        &[
            "\
done 0
value 0
message 0B 3B 1C 10 A1 0E 02 01 01 02 01
 3B 30 06 04 01 0F 04 01 41 7F 01 00

",
            "\
verdict 5 network released
result 1
operation 59
parameter 30 06 04 01 0F 04 01 41
scheme 0F
string 41
lines 1
A
tail
cause E0 9D

",
            "verdict 0 taken\n\n",
            "verdict 5 network released\ncause\n\n",
        ],
    ),
    // Four of the peer's, answered in another order; one that doesn't wait any more.
    // Four of ours, a fifth, one under an id that waits, a getPassword linked to the
    // first; a result to the second and an error to the fourth; its id again.
    (
        &[
            W1,
            "receive 0B3A 0BA1090201060201120A0100",
            "receive 0B3A 10A10E02010702013D300604010F040141",
            "receive 0B3A 10A10E02010802013C300604010F040141",
            "result 0 0 6 120430393331",
            "result 0 0 6 120430393331",
            "error 0 0 8 72",
            "result 0 0 5",
            REGISTER_PASSWORD,
            "invoke 1 0 59 2 300604010F040141",
            "invoke 1 0 11 2 3003040111",
            "invoke 1 0 11 3 3003040111",
            "invoke 1 0 10 4 0500",
            "invoke 1 0 10 5 0500",
            "receive 8B3A 0EA10C0201098001010201120A0100",
            "receive 8B3A 12A210020102300B02013B300604010F040141",
            "receive 8B3A 08A306020104020122",
            "invoke 1 0 10 2 0500",
            "table",
        ],
        &[
            W1_ANSWER,
            "verdict 0 taken\ninvoke 6\noperation 18\nparameter 0A 01 00\n\n",
            "\
verdict 0 taken
invoke 7
operation 61
parameter 30 06 04 01 0F 04 01 41
scheme 0F
string 41
lines 1
A
tail

",
            "\
verdict 0 taken
invoke 8
operation 60
parameter 30 06 04 01 0F 04 01 41
scheme 0F
string 41
lines 1
A
tail

",
            "\
done 0
message 8B 3A 10 A2 0E 02 01 06 30 09 02
 01 12 12 04 30 39 33 31

",
            "refused 24 no such invoke\n\n",
            "done 0\nmessage 8B 3A 08 A3 06 02 01 08 02 01 48\n\n",
            "done 0\nmessage 8B 3A 05 A2 03 02 01 05\n\n",
            REGISTER_PASSWORD_ANSWER,
            "\
done 0
message 0B 3A 10 A1 0E 02 01 02 02 01 3B
 30 06 04 01 0F 04 01 41

",
            "refused 23 still waiting\n\n",
            "\
done 0
message 0B 3A 0D A1 0B 02 01 03 02 01 0B
 30 03 04 01 11

",
            "done 0\nmessage 0B 3A 0A A1 08 02 01 04 02 01 0A\n 05 00\n\n",
            "refused 23 still waiting\n\n",
            "\
verdict 0 taken
invoke 9
linked 1
operation 18
parameter 0A 01 00

",
            "\
verdict 0 taken
result 2
operation 59
parameter 30 06 04 01 0F 04 01 41
scheme 0F
string 41
lines 1
A
tail

",
            "verdict 0 taken\nerror 4\ncode 34\n\n",
            "done 0\nmessage 0B 3A 0A A1 08 02 01 02 02 01 0A\n 05 00\n\n",
            "\
table 07 01 11 03 0B 02 0A 00 00 09 12
 00 00 00 00 00 00 00 00 00 00 00 00 00
 00 00 00 00 00 00 00 00 00 00 00 00 00
 00 00 00 00 00 00 00 00 00 00 00 00 00
 00 00 00 00 00 00 00 00 00 00 00 00 00
 00 00 00 00 00 00 00 00 00 00 00 00 00
 00 00 00 00 00 00 00 00 00 00 00 00 00
 00 00 00 00 00 00 00 00 00 00 00 00 00
 00 00 00 00 00 00 00 00 00 00 00 00 00
 00 00 00 00 05 00 00 00 00 00 00 00 00
 07 3D 00 00 00 00 00 00 00 00 00 00 00
 00 00 00 00 00 00 00 00 00 00 00 00 00
 00 00 00 00 00 00 00 00 00 00 00 00 00
 00 00 00 00 00 00 00 00 00 00 00 00 00
 00 00 00 00 00 00 00 00 00 00 00 00 00
 00 00 00 00 00 00 00 00 00 00 00 00 00
 00 00 00 00 00 00 00 00 00 00 00 00 00
 00 00 00 00 00 00 00 00 00 00 00 00 00
 00 00 00 00 00 00

",
        ],
    ),
    // Four of the peer's: the third again, even as a 38; then a fifth.
    (
        &[
            FOUR_WAIT,
            "receive 0B3A 08A106020107020126",
            FOUR_WAIT,
            "receive 0B3A 08A106020109020126",
        ],
        &[
            "table set\n\n",
            "\
verdict 3 reject sent
reply 8B 2A 1C 08 A4 06 02 01 07 81 01
 00

",
            "table set\n\n",
            "\
verdict 3 reject sent
reply 8B 2A 1C 08 A4 06 02 01 09 81 01
 03

",
        ],
    ),
    // The table and the buffer.
    (
        &[
            W1,
            "table",
            "buffer 0011",
            "receive",
            "release 0 0",
            "table 00",
            "receive",
            "table",
            "release 0 0",
        ],
        &[
            W1_ANSWER,
            "\
table 00 00 00 00 00 00 00 00 00 00 00
 00 00 00 00 00 00 00 00 00 00 00 00 00
 00 00 00 00 00 00 00 00 00 00 00 00 00
 00 00 00 00 00 00 00 00 00 00 00 00 00
 00 00 00 00 00 00 00 00 00 00 00 00 00
 00 00 00 00 00 00 00 00 00 00 00 00 00
 00 00 00 00 00 00 00 00 00 00 00 00 00
 00 00 00 00 00 00 00 00 00 00 00 00 00
 00 00 00 00 00 00 00 00 00 00 00 00 00
 00 00 00 00 05 00 00 00 00 00 00 00 00
 05 3C 00 00 00 00 00 00 00 00 00 00 00
 00 00 00 00 00 00 00 00 00 00 00 00 00
 00 00 00 00 00 00 00 00 00 00 00 00 00
 00 00 00 00 00 00 00 00 00 00 00 00 00
 00 00 00 00 00 00 00 00 00 00 00 00 00
 00 00 00 00 00 00 00 00 00 00 00 00 00
 00 00 00 00 00 00 00 00 00 00 00 00 00
 00 00 00 00 00 00 00 00 00 00 00 00 00
 00 00 00 00 00 00

",
            "buffer 11\n\n",
            "refused 27 buffer too short\n\n",
            "done 0\nmessage 8B 2A\n\n",
            "table set\n\n",
            "refused 28 table damaged\n\n",
            "table 00\n\n",
            "refused 28 table damaged\n\n",
        ],
    ),
    // What is passed over counts; what isn't understood changes nothing.
    (
        &[
            "# receive",
            "",
            " \t\r",
            "  # x",
            "receive 0B3",
            "Table",
            "buffer 301",
            "release 0 0 0",
            "\ttable  00\r",
            "begin 59 -0 300604010F040141",
            "begin 59 -129",
            "release 256 0",
        ],
        &[
            "line 5 not understood\n\n",
            "line 6 not understood\n\n",
            "line 7 not understood\n\n",
            "line 8 not understood\n\n",
            "table set\n\n",
            "refused 28 table damaged\n\n",
            "line 11 not understood\n\n",
            "line 12 not understood\n\n",
        ],
    ),
    // The other words.
    (
        &[
            "receive 00 00",
            "begin 60 1",
            "invoke 0 0 59 1",
            "begin 59 1",
            "receive 0B3B1C00",
            "result 0 0 5",
            "invoke 0 0 10 1 0500",
            "invoke 0 0 10 1 0500",
        ],
        &[
            "verdict 7 other protocol\n\n",
            "refused 20 not listed\n\n",
            "refused 22 not open\n\n",
            "refused 25 wrong parameter\n\n",
            "verdict 0 taken\n\n",
            "refused 24 no such invoke\n\n",
            "done 0\nmessage 8B 3A 0A A1 08 02 01 01 02 01 0A\n 05 00\n\n",
            "refused 23 still waiting\n\n",
        ],
    ),
];

#[test]
fn by_hand() {
    for (lines, expected) in WORKED {
        let given = answers(lines.join("\n").as_bytes());
        assert_eq!(String::from_utf8_lossy(&given), expected.concat());
    }
}

/// Octets and lines at their limits, and the values that run out.
#[test]
fn by_hand_at_the_limits() {
    let hex = |count: usize| "00".repeat(count);
    let open = format!("01{}", hex(16));
    let begin = "begin 59 1".to_string();
    let lines = [
        format!("receive {}", hex(255)),
        format!("receive {}", hex(256)),
        format!("receive {}", hex(4_096)),
        format!("receive {}", hex(4_097)),
        format!("receive {}0", hex(4_096)),
        format!("receive {}0Z", hex(4_096)),
        format!("receive {}00Z", hex(4_096)),
        format!("begin 10 1 04 82 01 00 {}", hex(256)),
        format!("table {}", hex(300)),
        format!("table {}", hex(301)),
        format!("table {}", hex(4_097)),
        format!("table {}", hex(238)),
        format!("#{}", " ".repeat(16_383)),
        format!("#{}", " ".repeat(16_384)),
        format!("table {}", hex(70)),
        begin.clone(),
        format!("table {}", hex(237)),
        begin.clone(),
        format!("table {}", hex(239)),
        begin.clone(),
        format!("table {}", open.repeat(7)),
        begin.clone(),
        format!("table {} {}", open.repeat(7), hex(119)),
        begin,
    ];
    let expected = "\
verdict 7 other protocol

verdict 6 too long

verdict 6 too long

line 4 too long

line 5 not understood

line 6 not understood

line 7 too long

refused 26 message too long

table set

line 10 not understood

line 11 too long

table set

line 14 too long

table set

refused 28 table damaged

table set

refused 28 table damaged

table set

refused 28 table damaged

table set

refused 28 table damaged

table set

refused 21 no value free

";
    let given = answers(lines.join("\n").as_bytes());
    assert_eq!(String::from_utf8_lossy(&given), expected);
}

#[test]
fn proved() {
    for (lines, expected) in WORKED {
        let given = compare(lines.join("\n").as_bytes());
        assert_eq!(String::from_utf8_lossy(&given), expected.concat());
    }
}
