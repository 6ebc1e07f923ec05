//! Answers that come while the input is still open: "a program holds one block (and the
//! writer one record and one line), and writes a block when it is full or judged".

use crate::program::{Program, READER, SALVAGE, WRITER};
use crate::trace_notation::file;
use second::trace::block::{block, BLOCK};
use std::io::{Read, Write};
use std::process::{Child, ChildStdin, Stdio};
use std::sync::mpsc::{channel, Receiver, RecvTimeoutError};
use std::time::Duration;

/// So long a program may take for an answer.
const PATIENCE: Duration = Duration::from_secs(20);

/// A program that runs, with what it has printed so far.
struct Live {
    child: Child,
    sink: ChildStdin,
    output: Receiver<u8>,
    error: Receiver<u8>,
}

impl Live {
    fn start(program: &Program) -> Live {
        let mut command = program.command();
        command.stdin(Stdio::piped()).stdout(Stdio::piped());
        let mut child = program.start(command.stderr(Stdio::piped()));
        Live {
            sink: child.stdin.take().expect("a pipe"),
            output: octets_of(child.stdout.take().expect("a pipe")),
            error: octets_of(child.stderr.take().expect("a pipe")),
            child,
        }
    }

    fn say(&mut self, input: impl AsRef<[u8]>) {
        self.sink.write_all(input.as_ref()).expect("it reads");
    }

    /// It prints this, and ends though the input is open.
    fn ends_with(mut self, output: &[u8], error: &[u8]) {
        next(&self.output, output);
        next(&self.error, error);
        at_end(&self.output);
        at_end(&self.error);
        assert!(self.child.wait().expect("it ends").success());
        drop(self.sink);
    }
}

/// What comes, octet by octet, from a thread of its own.
fn octets_of(source: impl Read + Send + 'static) -> Receiver<u8> {
    let (sender, receiver) = channel();
    std::thread::spawn(move || {
        for octet in source.bytes() {
            let sent = octet.map(|octet| sender.send(octet));
            if !matches!(sent, Ok(Ok(()))) {
                break;
            }
        }
    });
    receiver
}

/// These octets come next.
fn next(from: &Receiver<u8>, wanted: &[u8]) {
    for octet in wanted {
        assert_eq!(from.recv_timeout(PATIENCE), Ok(*octet), "an answer in time");
    }
}

/// Nothing comes any more.
fn at_end(from: &Receiver<u8>) {
    let next = from.recv_timeout(PATIENCE);
    assert_eq!(next, Err(RecvTimeoutError::Disconnected), "no end in time");
}

#[test]
fn reader() {
    let mut live = Live::start(&READER);
    live.say(block(0, &[0x00, 0x01, 0x41]));
    next(&live.output, b"received 41\n");
    live.say(block(1, &[]));
    live.say(block(2, &[0x01, 0x01, 0x42]));
    next(&live.output, b"sent 42\n");
    live.say(block(2, &[0x01, 0x01, 0x43]));
    live.ends_with(b"block 3 refused 36\n", b"");
}

#[test]
fn salvage() {
    let mut live = Live::start(&SALVAGE);
    let first = block(0, &[0x00, 0x01, 0x41]);
    live.say(&first);
    next(&live.output, &first);
    live.say(file(&["1::sum"]));
    next(&live.error, b"number 1 dropped 33\n");
    live.say(file(&["2:000142"]));
    next(&live.output, &file(&["1:000142"]));
    next(&live.error, b"number 2 renumbered 36\n");
    live.say([0; 3]);
    drop(live.sink);
    next(&live.error, b"place 3 dropped 32\n");
    at_end(&live.output);
    at_end(&live.error);
    assert!(live.child.wait().expect("it ends").success());
}

/// A block comes when a record didn't fit, and 35 ends the writing.
#[test]
fn writer() {
    let mut live = Live::start(&WRITER);
    // The 169th doesn't fit; that it ends there, the next line tells.
    live.say("received 41\n".repeat(170));
    let full = block(0, &[0x00, 0x01, 0x41].repeat(168));
    assert_eq!(full.len(), BLOCK);
    next(&live.output, &full);
    live.say("other 41\nsent 42\n");
    let rest = block(1, &[0x00, 0x01, 0x41].repeat(2));
    live.ends_with(&rest, b"line 171 refused 35\n");
}
