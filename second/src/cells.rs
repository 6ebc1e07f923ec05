//! A USSD string as text on forty cells.

use crate::alphabet::{self, SPACE};
use crate::septets;

/// The one coding scheme, "compared whole".
const SCHEME: u8 = 0x0F;
/// "lines of at most forty cells"
const WIDTH: usize = 40;

/// "182 characters and 9 lines (18 octets) are room enough for every text shown"
pub const CHARACTERS: usize = 182;
pub const LINE_OCTETS: usize = 18;

/// What the call gives; of a refused one, nothing but the code.
#[derive(Clone, Debug, Default, PartialEq, Eq)]
pub struct Laid {
    /// 0, or the refusal, 40 or 41.
    pub code: u8,
    /// "the whole text, dropped spaces included"
    pub text: Vec<u16>,
    /// Two octets for each line: its cells, and how many spaces were dropped
    /// behind it.
    pub lines: Vec<u8>,
}

/// "Refusals: 40 another coding scheme, 41 output too short, in that order."
pub fn cells(scheme: u8, string: &[u8], text_length: usize, lines_length: usize) -> Laid {
    if scheme != SCHEME {
        return refused(40);
    }
    let text = alphabet::characters(&septets::receive(string));
    let lines = lines(&text);
    // "41 exactly if the text has more characters than `text_length`, or more lines
    // than `lines_length` / 2 rounded down"
    if text.len() > text_length || lines.len() > lines_length / 2 {
        return refused(41);
    }
    Laid {
        code: 0,
        text,
        lines: lines.concat(),
    }
}

fn refused(code: u8) -> Laid {
    Laid {
        code,
        ..Laid::default()
    }
}

/// "A longer rest is broken at the last space among its first forty-one characters,
/// which is dropped, else after forty." "What is not longer than forty is the last
/// line, empty or not."
fn lines(text: &[u16]) -> Vec<[u8; 2]> {
    let mut lines = Vec::new();
    let mut rest = text;
    while rest.len() > WIDTH {
        let space = rest[..=WIDTH].iter().rposition(|c| *c == SPACE);
        let (cells, dropped) = match space {
            Some(before_it) => (before_it, 1),
            None => (WIDTH, 0),
        };
        lines.push([cells as u8, dropped as u8]);
        rest = &rest[cells + dropped..];
    }
    lines.push([rest.len() as u8, 0]);
    lines
}

impl Laid {
    pub fn line_count(&self) -> usize {
        self.lines.len() / 2
    }

    /// The characters of each line, on their cells: "the next line starts at the sum
    /// of both octets".
    pub fn rows(&self) -> Vec<&[u16]> {
        let mut rest = &self.text[..];
        let mut rows = Vec::new();
        for line in self.lines.chunks(2) {
            let (row, behind) = rest.split_at(usize::from(line[0]));
            rows.push(row);
            rest = &behind[usize::from(line[1])..];
        }
        rows
    }
}
