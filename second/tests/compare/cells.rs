//! Text on forty cells: the call on the archive and on the second program, and the
//! comparison.

mod cases;
mod each;
mod lengths;
mod long;
mod many;
mod notation;
mod room;
mod schemes;
mod suffice;

use crate::lent::Lent;
use crate::notation::hex;
use crate::report::lines;
use second::alphabet::SPACE;
use second::cells::cells;
use second::ffi;

/// All that the call is given, of text and lines the lengths.
#[derive(Clone, Copy)]
struct Asked<'a> {
    scheme: u8,
    string: &'a [u8],
    text_length: usize,
    lines_length: usize,
}

/// All that a call gives: what it returns, and the whole of text and lines.
#[derive(Clone, Debug, PartialEq, Eq)]
struct Facts {
    laid: ffi::Laid,
    text: Vec<u16>,
    lines: Vec<u8>,
}

/// The one scheme that isn't refused.
const SCHEME: u8 = 0x0F;
/// "lines of at most forty cells"
const WIDTH: usize = 40;
/// What guards a text and lines that are lent; no character, no cells, no mark.
const GUARDS: (u16, u8) = (0xD3D3, 0xD3);

impl<'a> Asked<'a> {
    /// A string of scheme 0F, with room enough.
    fn of(string: &'a [u8]) -> Asked<'a> {
        // No more characters than septets; "Two broken lines in a row take at least 41
        // characters."
        let characters = 8 * string.len() / 7;
        Asked {
            scheme: SCHEME,
            string,
            text_length: characters + 5,
            lines_length: 4 * (characters / 41) + 9,
        }
    }

    /// What text and lines hold before the call: nothing that it writes, and each
    /// place its own.
    fn marks(&self) -> (Vec<u16>, Vec<u8>) {
        let text = (0..self.text_length).map(|place| 0xA500 | place as u16 & 0xFF);
        let lines = (0..self.lines_length).map(|place| 0x80 | place as u8 & 0x3F);
        (text.collect(), lines.collect())
    }
}

impl Facts {
    /// The text that was written.
    fn text(&self) -> &[u16] {
        &self.text[..self.laid.characters]
    }

    /// The two octets of each line that was written.
    fn lines(&self) -> &[u8] {
        &self.lines[..2 * self.laid.lines]
    }
}

/// The call on both; they agree, and on what the paper says of every outcome.
fn compare(asked: &Asked) -> Facts {
    let (archive, second) = (on_archive(asked), on_second(asked));
    if archive != second {
        report(asked, &archive, &second);
        panic!("they differ");
    }
    if !is_sound(&archive) {
        report(asked, &archive, &second);
        panic!("no lines of that text");
    }
    archive
}

fn on_archive(asked: &Asked) -> Facts {
    let (text, lines) = asked.marks();
    let mut text = Lent::new(&text, GUARDS.0);
    let mut lines = Lent::new(&lines, GUARDS.1);
    Facts {
        laid: ffi::cells(asked.scheme, asked.string, text.slice(), lines.slice()),
        text: text.back(),
        lines: lines.back(),
    }
}

fn on_second(asked: &Asked) -> Facts {
    let laid = cells(
        asked.scheme,
        asked.string,
        asked.text_length,
        asked.lines_length,
    );
    let (mut text, mut lines) = asked.marks();
    text[..laid.text.len()].copy_from_slice(&laid.text);
    lines[..laid.lines.len()].copy_from_slice(&laid.lines);
    Facts {
        laid: (&laid).into(),
        text,
        lines,
    }
}

/// The lines, with what was dropped, are the text, and each break is where it must be.
fn is_sound(facts: &Facts) -> bool {
    if facts.laid.code != 0 {
        return (facts.laid.characters, facts.laid.lines) == (0, 0);
    }
    let mut rest = facts.text();
    let (broken, last) = match facts.lines() {
        [broken @ .., cells, 0] => (broken, usize::from(*cells)),
        _ => return false,
    };
    for line in broken.chunks(2) {
        let cells = usize::from(line[0]);
        let Some(window) = rest.get(..=WIDTH) else {
            return false;
        };
        let is_right = match line[1] {
            0 => cells == WIDTH && !window.contains(&SPACE),
            1 => window.get(cells) == Some(&SPACE) && !window[cells + 1..].contains(&SPACE),
            _ => false,
        };
        if !is_right {
            return false;
        }
        rest = &rest[cells + usize::from(line[1])..];
    }
    rest.len() == last && last <= WIDTH
}

fn report(asked: &Asked, archive: &Facts, second: &Facts) {
    println!("| scheme {:02X}", asked.scheme);
    println!("| text_length {}", asked.text_length);
    println!("| lines_length {}", asked.lines_length);
    lines("string", &hex(asked.string));
    for (name, facts) in [("archive", archive), ("second", second)] {
        lines(name, &format!("{:?}", facts.laid));
        let text = facts.text.iter().map(|c| format!("{c:X} "));
        lines("text after", &text.collect::<String>());
        lines("lines after", &hex(&facts.lines));
    }
}
