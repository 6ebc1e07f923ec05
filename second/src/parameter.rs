//! The parameters of 01, and what an operation needs of them.

use crate::element::{Element, Row};
use crate::part::Part;

#[derive(Clone, Copy, Debug, PartialEq, Eq)]
pub enum Kind {
    /// "any one element"
    AnyElement,
    /// USSD-Arg and USSD-Res
    Ussd,
    Guidance,
    Password,
    SsForBs,
    ServiceCode,
}

#[derive(Clone, Copy, Debug, PartialEq, Eq)]
pub enum Need {
    Nothing,
    Optional(Kind),
    Required(Kind),
}

/// The text of a USSD parameter.
#[derive(Clone, Debug, PartialEq, Eq)]
pub struct Text {
    pub scheme: u8,
    pub string: Part,
    pub tail: Part,
}

impl Need {
    pub fn is_met_by(self, parameter: Option<&Element>) -> bool {
        match (self, parameter) {
            (Need::Nothing | Need::Optional(_), None) => true,
            (Need::Nothing, Some(_)) | (Need::Required(_), None) => false,
            (Need::Optional(kind) | Need::Required(kind), Some(element)) => kind.is_of(element),
        }
    }
}

impl Kind {
    fn is_of(self, element: &Element) -> bool {
        match self {
            Kind::AnyElement => true,
            Kind::Ussd => Text::of(element).is_some(),
            // "Guidance: 0A, length 1, value 0 to 2."
            Kind::Guidance => matches!(element.single(0x0A), Some(0..=2)),
            Kind::Password => is_password(element),
            Kind::SsForBs => is_ss_for_bs(element),
            // "Service code: 04 of length 1."
            Kind::ServiceCode => element.single(0x04).is_some(),
        }
    }
}

impl Text {
    /// "30 holding 04 of length 1 (coding scheme), 04 of length 1 to 160
    /// (string), then a tail of zero or more elements, unread."
    pub fn of(element: &Element) -> Option<Text> {
        let mut row = inside_30(element)?;
        let scheme = row.take_readable()?.single(0x04)?;
        let string = row.take_readable()?;
        if string.tag != 0x04 || !(1..=160).contains(&string.length()) || !row.is_a_tail() {
            return None;
        }
        let behind = string.whole.end() - element.contents.start;
        let tail = element.contents.rest(behind)?;
        Some(Text {
            scheme,
            string: string.contents,
            tail,
        })
    }
}

/// "The definition becomes: tag 12, length 4, each octet 30 to 39 hex."
fn is_password(element: &Element) -> bool {
    let octets = &element.contents.octets;
    element.tag == 0x12
        && octets.len() == 4
        && octets.iter().all(|octet| (0x30..=0x39).contains(octet))
}

fn inside_30(element: &Element) -> Option<Row> {
    (element.tag == 0x30).then(|| Row::of(&element.contents))
}

/// "30 holding 04 of length 1; optional 82 or 83, which standing there has
/// length 1; then a tail."
fn is_ss_for_bs(element: &Element) -> bool {
    let Some(mut row) = inside_30(element) else {
        return false;
    };
    let code = row.take_readable().and_then(|first| first.single(0x04));
    let second_is_sound = match row.peek() {
        Some(Ok(second)) if matches!(second.tag, 0x82 | 0x83) => second.length() == 1,
        _ => true,
    };
    code.is_some() && second_is_sound && row.is_a_tail()
}
