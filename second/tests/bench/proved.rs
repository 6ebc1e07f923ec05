//! The proved program on a whole input, and the comparison.

use crate::reading::{first_answer, width};
use crate::report::lines;
use second::bench::{answers, Bench};
use std::io::{self, Read, Write};
use std::process::{Child, Command, ExitStatus, Stdio};

/// The program, from the manifest's folder, unless SMR_BENCH has another command.
const PROGRAM: &str = "../target/bin/bench";
const WIDTH: usize = 40;
/// So much of a line is shown.
const SHOWN: usize = 200;

/// What a run gives, and whether the whole input was read.
struct Run {
    output: Vec<u8>,
    fed: io::Result<()>,
    status: ExitStatus,
}

/// Both on this input; they agree, in lines of at most forty characters.
pub fn compare(input: &[u8]) -> Vec<u8> {
    let run = run(input);
    if run.output != answers(input) {
        report(input, &run.output);
        panic!("they differ");
    }
    assert!(run.status.success(), "ended by {}", run.status);
    run.fed.expect("the whole input is read");
    let mut widths = run.output.split(|o| *o == b'\n').map(width);
    assert!(widths.all(|width| width <= WIDTH), "a line is too wide");
    run.output
}

fn run(input: &[u8]) -> Run {
    let mut child = start();
    let mut sink = child.stdin.take().expect("a pipe");
    let mut source = child.stdout.take().expect("a pipe");
    let mut output = Vec::new();
    // Fed from a thread: the program may write before it has read all.
    let fed = std::thread::scope(|scope| {
        let feeder = scope.spawn(move || sink.write_all(input));
        source.read_to_end(&mut output).expect("its output");
        feeder.join().expect("the feeder ends")
    });
    Run {
        output,
        fed,
        status: child.wait().expect("it ends"),
    }
}

fn start() -> Child {
    let asked = std::env::var("SMR_BENCH").unwrap_or_default();
    let mut words = asked.split_whitespace();
    let mut command = Command::new(words.next().unwrap_or(PROGRAM));
    command.args(words).current_dir(env!("CARGO_MANIFEST_DIR"));
    command.stdin(Stdio::piped()).stdout(Stdio::piped());
    match command.spawn() {
        Ok(child) => child,
        Err(error) => panic!("the proved bench doesn't start: {error}"),
    }
}

/// The first line whose answers differ, and both answers.
fn report(input: &[u8], output: &[u8]) {
    let mut bench = Bench::default();
    let mut left = output;
    for (before, line) in input.split_inclusive(|o| *o == b'\n').enumerate() {
        let line = line.strip_suffix(b"\n").unwrap_or(line);
        let answer = bench.answer(line);
        let Some(rest) = left.strip_prefix(answer.as_bytes()) else {
            println!("| they differ, line {}", before + 1);
            lines(
                "line",
                &line[..line.len().min(SHOWN)].escape_ascii().to_string(),
            );
            let proved = readable(left);
            let second = readable(answer.as_bytes());
            lines("proved", &proved);
            lines("second", &second);
            if proved == second {
                println!("| only the empty line behind differs");
            }
            return;
        };
        left = rest;
    }
    println!("| they differ behind the last line");
    lines("proved", &readable(left));
}

/// The first answer of these.
fn readable(output: &[u8]) -> String {
    let lines = first_answer(output).into_iter();
    let lines: Vec<String> = lines.map(|line| line.escape_ascii().to_string()).collect();
    lines.join("\n")
}
