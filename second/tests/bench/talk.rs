//! An input as it grows, with the table that it leads to.

use crate::call::Call;
use crate::chance::Chance;
use crate::met::{met, Met};
use crate::writing;
use second::bench::Bench;
use second::table::Table;

pub struct Talk {
    pub input: Vec<u8>,
    pub lines: usize,
    /// What the calls met.
    pub met: Vec<Met>,
    bench: Bench,
    /// The last table that wasn't damaged.
    sound: Vec<u8>,
}

impl Default for Talk {
    fn default() -> Talk {
        let bench = Bench::default();
        Talk {
            input: Vec::new(),
            lines: 0,
            met: Vec::new(),
            sound: bench.table().to_vec(),
            bench,
        }
    }
}

impl Talk {
    /// A line, or more of them if it holds newlines.
    pub fn say(&mut self, line: impl AsRef<[u8]>) {
        let line = line.as_ref();
        for part in line.split(|o| *o == b'\n') {
            self.bench.answer(part);
            self.lines += 1;
        }
        self.input.extend([line, b"\n"].concat());
        if Table::decode(self.table()).is_some() {
            self.sound = self.table().to_vec();
        }
    }

    /// A call's line.
    pub fn call(&mut self, c: &mut Chance, call: &Call) {
        let line = writing::line(c, call);
        self.met.extend(met(self.table(), call, self.room()));
        self.say(line);
    }

    pub fn table(&self) -> &[u8] {
        self.bench.table()
    }

    pub fn room(&self) -> usize {
        self.bench.room()
    }

    /// The table by which messages and calls are drawn.
    pub fn sound(&self) -> &[u8] {
        &self.sound
    }

    /// What the line would answer if the buffer had 300 octets.
    pub fn answer_with_room(&self, line: &[u8]) -> String {
        let mut bench = self.bench.clone();
        bench.answer(b"buffer 300");
        bench.answer(line)
    }
}
