//! An output, line by line: the bench's own lines, and those of texts.

#[derive(Clone, Copy, Debug, PartialEq, Eq)]
pub enum Line<'a> {
    Own(&'a [u8]),
    OfText(&'a [u8]),
}

/// "`lines N` follows it, then the N lines of text"; "A line of no cells is an empty
/// line: N tells it from the answer's end."
pub fn lines(output: &[u8]) -> Vec<Line<'_>> {
    let mut of_text = 0;
    let lines = output.split_inclusive(|octet| *octet == b'\n');
    let lines = lines.map(|line| line.strip_suffix(b"\n").unwrap_or(line));
    let told = lines.map(|line| match of_text {
        0 => {
            of_text = count(line);
            Line::Own(line)
        }
        _ => {
            of_text -= 1;
            Line::OfText(line)
        }
    });
    told.collect()
}

/// How many lines of text come behind this one.
fn count(line: &[u8]) -> usize {
    let number = line.strip_prefix(b"lines ").unwrap_or_default();
    let number = std::str::from_utf8(number).unwrap_or_default();
    number.parse().unwrap_or(0)
}

/// The lines up to the end of the first answer.
pub fn first_answer(output: &[u8]) -> Vec<&[u8]> {
    let lines = lines(output).into_iter();
    let lines = lines.take_while(|line| *line != Line::Own(b""));
    lines.map(Line::octets).collect()
}

impl<'a> Line<'a> {
    fn octets(self) -> &'a [u8] {
        match self {
            Line::Own(line) | Line::OfText(line) => line,
        }
    }
}

/// "At most forty characters" counts characters: "octets from 80 to BF are none".
pub fn width(line: &[u8]) -> usize {
    let begins = |octet: &&u8| !(0x80..=0xBF).contains(*octet);
    line.iter().filter(begins).count()
}
