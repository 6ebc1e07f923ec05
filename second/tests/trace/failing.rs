//! "A read that fails is not the end of the input": `input failed`; and one whose output
//! can't be written: `output failed`.

use crate::program::{Program, READER, SALVAGE, WRITER};
use second::trace::block::{block, BLOCK};
use second::trace::programs::Printed;
use std::fs::{File, OpenOptions};
use std::io::Write;
use std::os::fd::OwnedFd;
use std::os::unix::net::UnixStream;
use std::process::Stdio;

/// What it prints with this as its standard input.
fn run(program: &Program, input: impl Into<Stdio>) -> Printed {
    let mut command = program.command();
    command.stdin(input).stdout(Stdio::piped());
    let child = program.start(command.stderr(Stdio::piped()));
    let ended = child.wait_with_output().expect("it ends");
    assert!(ended.status.success(), "ended by {}", ended.status);
    Printed {
        output: ended.stdout,
        error: ended.stderr,
    }
}

/// An input that has these octets, and then a read fails: the other end was closed with
/// something unread.
fn failing_behind(octets: &[u8]) -> OwnedFd {
    let (mut ours, mut other) = UnixStream::pair().expect("a pair");
    ours.write_all(b"unread").expect("written");
    other.write_all(octets).expect("written");
    drop(other);
    ours.into()
}

const FAILED: &[u8] = b"input failed\n";

/// A folder can be opened, but no octet of it read.
#[test]
fn at_once() {
    for program in [WRITER, READER, SALVAGE] {
        let folder = File::open(env!("CARGO_MANIFEST_DIR")).expect("a folder");
        let printed = run(&program, folder);
        assert_eq!(printed.output, b"");
        assert_eq!(printed.error, FAILED);
    }
}

/// What was whole is given; what was cut is not said to be short.
#[test]
fn behind_blocks() {
    let first = block(0, &[0x00, 0x01, 0x41]);
    for cut in [0, 1, 511] {
        let octets = [&first[..], &vec![0; cut]].concat();
        let read = run(&READER, failing_behind(&octets));
        assert_eq!(
            (&read.output[..], &read.error[..]),
            (&b"received 41\n"[..], FAILED)
        );
        let salvaged = run(&SALVAGE, failing_behind(&octets));
        assert_eq!(
            (&salvaged.output[..], &salvaged.error[..]),
            (&first[..], FAILED)
        );
    }
}

/// Whole blocks, and nothing that the failing line may have begun.
#[test]
fn behind_lines() {
    for lines in ["sent 41", "sent 41\n", "sent 41\nreceived", "# x"] {
        let printed = run(&WRITER, failing_behind(lines.as_bytes()));
        assert_eq!(printed.error, FAILED);
        assert!(
            printed.output.len().is_multiple_of(BLOCK),
            "a part of a block"
        );
    }
    let full = block(0, &[0x00, 0x01, 0x41].repeat(168));
    let lines = "received 41\n".repeat(171);
    let printed = run(&WRITER, failing_behind(lines.as_bytes()));
    assert_eq!(printed.error, FAILED);
    assert!(printed.output.starts_with(&full), "the full block");
}

/// A device that is always full.
#[test]
fn output() {
    let file = block(0, &[0x00, 0x01, 0x41]);
    for (program, input) in [
        (WRITER, &b"sent 41\n"[..]),
        (READER, &file),
        (READER, &[0xFF; BLOCK]),
        (SALVAGE, &file),
    ] {
        let full = OpenOptions::new().write(true).open("/dev/full");
        let mut command = program.command();
        command
            .stdin(Stdio::piped())
            .stdout(full.expect("the device"));
        let mut child = program.start(command.stderr(Stdio::piped()));
        let mut sink = child.stdin.take().expect("a pipe");
        sink.write_all(input).expect("it fits a pipe");
        drop(sink);
        let ended = child.wait_with_output().expect("it ends");
        assert!(ended.status.success(), "ended by {}", ended.status);
        assert_eq!(ended.stderr, b"output failed\n");
    }
}
