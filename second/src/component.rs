//! Components as step 5 finds them, apart from the table.

use crate::element::{Element, Row, Unreadable};
use crate::part::Part;

#[derive(Clone, Debug, PartialEq, Eq)]
pub enum Component {
    Invoke {
        id: i8,
        linked: Option<i8>,
        operation: u8,
        parameter: Option<Element>,
    },
    ReturnResult {
        id: i8,
        answer: Option<Answer>,
    },
    ReturnError {
        id: i8,
        code: u8,
        parameter: Option<Element>,
    },
    Reject {
        id: Option<i8>,
        tag: u8,
        problem: u8,
    },
}

/// The 30 of a Return result.
#[derive(Clone, Debug, PartialEq, Eq)]
pub struct Answer {
    pub operation: u8,
    pub parameter: Option<Element>,
}

/// "problems general 80, invoke 81, result 82, error 83"
#[derive(Clone, Copy, Debug, PartialEq, Eq)]
pub enum Problem {
    General(u8),
    Invoke(u8),
    Result(u8),
    Error(u8),
}

/// What is wrong with a Facility value.
#[derive(Clone, Debug, PartialEq, Eq)]
pub enum Fault {
    /// "Octets left after it: cause 29, no component"
    OctetsLeft,
    /// "Under outer tag A4 every fault but the cause 29 gives verdict 4."
    InReject,
    /// "Reject carries the invoke id if it was read."
    Problem(Option<i8>, Problem),
}

/// A place that doesn't hold what stands there.
enum Misplaced {
    Unreadable,
    Other,
}

impl From<Unreadable> for Misplaced {
    fn from(_: Unreadable) -> Misplaced {
        Misplaced::Unreadable
    }
}

impl Component {
    pub fn parameter(&self) -> Option<&Element> {
        match self {
            Component::Invoke { parameter, .. } => parameter.as_ref(),
            Component::ReturnResult { answer, .. } => answer.as_ref()?.parameter.as_ref(),
            Component::ReturnError { parameter, .. } => parameter.as_ref(),
            Component::Reject { .. } => None,
        }
    }

    /// Step 5; none for "an empty Facility value".
    pub fn read(facility: &Part) -> Result<Option<Component>, Fault> {
        let Some(&outer) = facility.octets.first() else {
            return Ok(None);
        };
        // "outer tag none of A1 to A4: general 0"
        if !(0xA1..=0xA4).contains(&outer) {
            return Err(Fault::Problem(None, Problem::General(0)));
        }
        // "Outer length: general 2."
        let element = Element::read(facility, 0).map_err(|_| unreadable_outer(outer))?;
        if element.whole.end() != facility.end() {
            return Err(Fault::OctetsLeft);
        }
        read_inside(outer, Row::of(&element.contents)).map(Some)
    }
}

fn unreadable_outer(outer: u8) -> Fault {
    match outer {
        0xA4 => Fault::InReject,
        _ => Fault::Problem(None, Problem::General(2)),
    }
}

/// "Then left to right, first fault."
fn read_inside(outer: u8, mut row: Row) -> Result<Component, Fault> {
    if outer == 0xA4 {
        return read_reject(&mut row).map_err(|_| Fault::InReject);
    }
    let id = number(&mut row, 0x02).map_err(|m| general(None, m))? as i8;
    let component = match outer {
        0xA1 => read_invoke(id, &mut row),
        0xA2 => read_result(id, &mut row),
        _ => read_error(id, &mut row),
    };
    component.map_err(|m| general(Some(id), m))
}

/// "an element that can't be read, general 2; missing, other tag, wrong contents
/// length, or octets after the last place, readable or not, general 1"
fn general(id: Option<i8>, misplaced: Misplaced) -> Fault {
    let problem = match misplaced {
        Misplaced::Unreadable => 2,
        Misplaced::Other => 1,
    };
    Fault::Problem(id, Problem::General(problem))
}

/// "02 invoke id; optional 80 linked id; 02 operation; optional one parameter"
fn read_invoke(id: i8, row: &mut Row) -> Result<Component, Misplaced> {
    let linked = match row.peek() {
        Some(Ok(element)) if element.tag == 0x80 => Some(number(row, 0x80)? as i8),
        _ => None,
    };
    let operation = number(row, 0x02)?;
    let parameter = last_parameter(row)?;
    Ok(Component::Invoke {
        id,
        linked,
        operation,
        parameter,
    })
}

/// "02 invoke id; optional 30 holding 02 operation and optional one parameter"
fn read_result(id: i8, row: &mut Row) -> Result<Component, Misplaced> {
    let answer = match row.take().transpose()? {
        None => None,
        Some(element) if element.tag == 0x30 => Some(read_answer(&element)?),
        Some(_) => return Err(Misplaced::Other),
    };
    over(row)?;
    Ok(Component::ReturnResult { id, answer })
}

fn read_answer(element: &Element) -> Result<Answer, Misplaced> {
    let mut row = Row::of(&element.contents);
    let operation = number(&mut row, 0x02)?;
    let parameter = last_parameter(&mut row)?;
    Ok(Answer {
        operation,
        parameter,
    })
}

/// "02 invoke id; 02 error code; optional one parameter"
fn read_error(id: i8, row: &mut Row) -> Result<Component, Misplaced> {
    let code = number(row, 0x02)?;
    let parameter = last_parameter(row)?;
    Ok(Component::ReturnError {
        id,
        code,
        parameter,
    })
}

/// "02 invoke id, or 05 with length 0; then one of 80, 81, 82, 83 with one octet"
fn read_reject(row: &mut Row) -> Result<Component, Misplaced> {
    let first = row.take().ok_or(Misplaced::Other)??;
    let id = match first.tag {
        0x05 if first.length() == 0 => None,
        _ => Some(first.single(0x02).ok_or(Misplaced::Other)? as i8),
    };
    let second = row.take().ok_or(Misplaced::Other)??;
    let tag = second.tag;
    let problem = second.single(tag).ok_or(Misplaced::Other)?;
    over(row)?;
    match tag {
        0x80..=0x83 => Ok(Component::Reject { id, tag, problem }),
        _ => Err(Misplaced::Other),
    }
}

/// "Each id, operation and error code has one octet of contents."
fn number(row: &mut Row, tag: u8) -> Result<u8, Misplaced> {
    let element = row.take().ok_or(Misplaced::Other)??;
    element.single(tag).ok_or(Misplaced::Other)
}

/// "Here a parameter is read as one element only."
fn last_parameter(row: &mut Row) -> Result<Option<Element>, Misplaced> {
    let parameter = row.take().transpose()?;
    over(row)?;
    Ok(parameter)
}

/// "octets after the last place, readable or not"
fn over(row: &Row) -> Result<(), Misplaced> {
    match row.is_over() {
        true => Ok(()),
        false => Err(Misplaced::Other),
    }
}

impl Problem {
    pub fn octets(self) -> [u8; 2] {
        match self {
            Problem::General(number) => [0x80, number],
            Problem::Invoke(number) => [0x81, number],
            Problem::Result(number) => [0x82, number],
            Problem::Error(number) => [0x83, number],
        }
    }
}
