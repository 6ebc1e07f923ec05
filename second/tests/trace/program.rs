//! A program run on a whole input, and the comparison.

use crate::notation::hex;
use crate::report::lines;
use second::trace::programs::{salvage, trace_reader, trace_writer, Printed};
use std::io::{self, ErrorKind, Write};
use std::process::{Child, ChildStdin, Command, Stdio};

/// A program, and the second one.
pub struct Program {
    /// Has its command, if it is another than `path`.
    variable: &'static str,
    /// From the manifest's folder.
    path: &'static str,
    second: fn(&[u8]) -> Printed,
    /// Whether it prints lines on standard output, or a file.
    prints_lines: bool,
}

pub const WRITER: Program = Program {
    variable: "SMR_TRACE_WRITER",
    path: "../target/bin/trace_writer",
    second: trace_writer,
    prints_lines: false,
};
pub const READER: Program = Program {
    variable: "SMR_TRACE_READER",
    path: "../target/bin/trace_reader",
    second: trace_reader,
    prints_lines: true,
};
pub const SALVAGE: Program = Program {
    variable: "SMR_SALVAGE",
    path: "../target/bin/salvage",
    second: salvage,
    prints_lines: false,
};

const WIDTH: usize = 40;
/// So much of an input or output is shown.
const SHOWN: usize = 1_200;

impl Program {
    /// Both on this input; they agree.
    pub fn compare(&self, input: &[u8]) -> Printed {
        self.compare_fed(input, |sink| sink.write_all(input))
    }

    /// The same, for an input that is fed in some way of its own.
    pub fn compare_fed(
        &self,
        input: &[u8],
        feed: impl FnOnce(&mut ChildStdin) -> io::Result<()> + Send,
    ) -> Printed {
        let printed = self.run(feed);
        let second = (self.second)(input);
        if printed != second {
            self.report(input, &printed, &second);
            panic!("they differ");
        }
        printed
    }

    /// What it prints, in lines of at most forty characters.
    pub fn run(&self, feed: impl FnOnce(&mut ChildStdin) -> io::Result<()> + Send) -> Printed {
        let mut command = self.command();
        command.stdin(Stdio::piped()).stdout(Stdio::piped());
        let mut child = self.start(command.stderr(Stdio::piped()));
        let mut sink = child.stdin.take().expect("a pipe");
        // Fed from a thread: the program may write before it has read all.
        let (fed, ended) = std::thread::scope(|scope| {
            let feeder = scope.spawn(move || feed(&mut sink));
            let ended = child.wait_with_output().expect("it ends");
            (feeder.join().expect("the feeder ends"), ended)
        });
        assert!(ended.status.success(), "ended by {}", ended.status);
        let printed = Printed {
            output: ended.stdout,
            error: ended.stderr,
        };
        self.check_fed(fed, &printed);
        self.check_width(&printed);
        printed
    }

    /// All of it is read, unless a refusal ends the program.
    fn check_fed(&self, fed: io::Result<()>, printed: &Printed) {
        let may_stop = match self.path {
            _ if self.path == WRITER.path => !printed.error.is_empty(),
            _ if self.path == READER.path => refusal(&printed.output).is_some(),
            _ => false,
        };
        match fed {
            Err(error) if may_stop && error.kind() == ErrorKind::BrokenPipe => (),
            fed => fed.expect("the whole input is read"),
        }
    }

    fn check_width(&self, printed: &Printed) {
        let output = match self.prints_lines {
            true => &printed.output[..],
            false => &[],
        };
        for text in [output, &printed.error] {
            assert!(text.is_ascii(), "other characters");
            assert!(text.is_empty() || text.ends_with(b"\n"), "no line feed");
            let mut lines = text.split(|octet| *octet == b'\n');
            assert!(lines.all(|line| line.len() <= WIDTH), "a line is too wide");
        }
    }

    pub fn command(&self) -> Command {
        let asked = std::env::var(self.variable).unwrap_or_default();
        let mut words = asked.split_whitespace();
        let mut command = Command::new(words.next().unwrap_or(self.path));
        command.args(words).current_dir(env!("CARGO_MANIFEST_DIR"));
        command
    }

    pub fn start(&self, command: &mut Command) -> Child {
        match command.spawn() {
            Ok(child) => child,
            Err(error) => panic!("{} doesn't start: {error}", self.path),
        }
    }

    fn report(&self, input: &[u8], printed: &Printed, second: &Printed) {
        println!("| {}, {} octets in", self.path, input.len());
        lines("input", &shown(input, self.path != WRITER.path));
        for (name, printed) in [("proved", printed), ("second", second)] {
            println!("| {name}, {} octets out", printed.output.len());
            lines("output", &shown(&printed.output, !self.prints_lines));
            lines("error", &shown(&printed.error, false));
        }
    }
}

/// The first octets, as hex or as they look.
fn shown(octets: &[u8], as_hex: bool) -> String {
    let first = &octets[..octets.len().min(SHOWN)];
    match as_hex {
        true => hex(first),
        false => first.escape_ascii().to_string(),
    }
}

/// The place and the fault of a reader's last line, if that is a refusal.
pub fn refusal(output: &[u8]) -> Option<(u64, u8)> {
    let text = std::str::from_utf8(output).ok()?;
    let words: Vec<&str> = text.lines().last()?.split(' ').collect();
    match words[..] {
        ["block", place, "refused", fault] => Some((place.parse().ok()?, fault.parse().ok()?)),
        _ => None,
    }
}
