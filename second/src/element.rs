//! Elements (001 clause 3.6, X.690) and rows of them.

use crate::part::Part;
use std::collections::VecDeque;

/// "An element is one tag octet, a length, contents."
#[derive(Clone, Debug, PartialEq, Eq)]
pub struct Element {
    pub tag: u8,
    /// With its tag and length.
    pub whole: Part,
    pub contents: Part,
}

/// An element that can't be read.
#[derive(Clone, Copy, Debug, PartialEq, Eq)]
pub struct Unreadable;

impl Element {
    /// The element that stands `at` this place of the part.
    pub fn read(part: &Part, at: usize) -> Result<Element, Unreadable> {
        let octets = part.octets.get(at..).ok_or(Unreadable)?;
        let (&tag, after_tag) = octets.split_first().ok_or(Unreadable)?;
        if is_refused(tag) {
            return Err(Unreadable);
        }
        let (length, taken) = read_length(after_tag)?;
        let begin = at + 1 + taken;
        // "Contents that pass the enclosing end are refused."
        let contents = part.cut(begin, begin + length).ok_or(Unreadable)?;
        let whole = part.cut(at, begin + length).ok_or(Unreadable)?;
        Ok(Element {
            tag,
            whole,
            contents,
        })
    }

    /// The one octet of its contents, if it has this tag and exactly one.
    pub fn single(&self, tag: u8) -> Option<u8> {
        match self.contents.octets[..] {
            [octet] if self.tag == tag => Some(octet),
            _ => None,
        }
    }

    pub fn length(&self) -> usize {
        self.contents.octets.len()
    }
}

/// "Refused tags: 00, and low five bits all ones."
fn is_refused(tag: u8) -> bool {
    tag == 0x00 || tag & 0x1F == 0x1F
}

/// "00 to 7F; 81 and one octet; 82 and two octets": the length, and how many
/// octets it took. "80 and 83 to FF are refused."
fn read_length(octets: &[u8]) -> Result<(usize, usize), Unreadable> {
    match *octets {
        [short @ 0x00..=0x7F, ..] => Ok((usize::from(short), 1)),
        [0x81, one, ..] => Ok((usize::from(one), 2)),
        [0x82, high, low, ..] => Ok((usize::from(high) * 256 + usize::from(low), 3)),
        _ => Err(Unreadable),
    }
}

/// The elements of some contents, in order; an unreadable one is the last.
#[derive(Clone, Debug)]
pub struct Row {
    places: VecDeque<Result<Element, Unreadable>>,
}

impl Row {
    pub fn of(contents: &Part) -> Row {
        let mut places = VecDeque::new();
        let mut at = 0;
        while at < contents.octets.len() {
            let element = Element::read(contents, at);
            at = match &element {
                Ok(read) => at + read.whole.octets.len(),
                Err(Unreadable) => contents.octets.len(),
            };
            places.push_back(element);
        }
        Row { places }
    }

    /// What stands at the next place; none where no octet is left.
    pub fn take(&mut self) -> Option<Result<Element, Unreadable>> {
        self.places.pop_front()
    }

    /// The next element if it is readable.
    pub fn take_readable(&mut self) -> Option<Element> {
        self.take()?.ok()
    }

    pub fn peek(&self) -> Option<&Result<Element, Unreadable>> {
        self.places.front()
    }

    pub fn is_over(&self) -> bool {
        self.places.is_empty()
    }

    /// "a tail of zero or more elements", all that is left.
    pub fn is_a_tail(&self) -> bool {
        self.places.iter().all(Result::is_ok)
    }
}
