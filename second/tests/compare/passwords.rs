//! Passwords, written and received, and their tag where it is no Password: what
//! becomes of them.

use crate::call::{Call, Named};
use crate::carried::{self, Weighed, RELEASE_COMPLETE};
use crate::met::Met;
use crate::tables;
use second::component::{Answer, Component};
use second::element::Element;
use second::part::Part;

const TAG: u8 = 0x12;
/// A result is shown, where else the number of its problem stands.
const SHOWN: u8 = 0xA2;

/// What must occur often: a Password taken and refused, written and received.
pub const OFTEN: [(&str, &[u8]); 3] = [
    ("password written", &[0, 25]),
    ("facility password", &[2, SHOWN]),
    ("release password", &[2, SHOWN]),
];

/// What must occur too: the one octet of four that is no digit, by its place; and the
/// tag taken without digits: in results, by their operation, in errors, in registerSS.
pub const MET: [(&str, &[u8]); 5] = [
    ("no digit written at", &[0, 1, 2, 3]),
    ("no digit read at", &[0, 1, 2, 3]),
    ("no password from", &[10, 11, 12, 13, 14]),
    ("no password read in", &[0xA3]),
    ("no password written in", &[0xA1, 0xA3]),
];

/// A message of this kind that brings a result.
pub fn sent(kind: u8, named: Named, id: u8, operation: u8, parameter: &[u8]) -> Vec<u8> {
    let answer = [&[0x02, 0x01, operation], parameter].concat();
    let places = [vec![0x02, 0x01, id, 0x30, answer.len() as u8], answer].concat();
    let component = [vec![0xA2, places.len() as u8], places].concat();
    carried::sent(kind, named, &component)
}

/// What the component meets, of the above.
pub fn received(weighed: &Weighed) -> Vec<Met> {
    let Some(octets) = weighed.component.parameter().and_then(contents) else {
        return Vec::new();
    };
    let problem = weighed.problem;
    match (&weighed.component, problem) {
        (component, None | Some(2)) if weighed.operation == 17 && is_of_17(component) => {
            let place = match weighed.kind {
                RELEASE_COMPLETE => "release password",
                _ => "facility password",
            };
            let became = (place, problem.unwrap_or(SHOWN));
            with_odd_one(became, "no digit read at", &octets)
        }
        (_, None) if is_password(&octets) => Vec::new(),
        (Component::ReturnResult { .. }, None) => vec![("no password from", weighed.operation)],
        (Component::ReturnError { .. }, None) => vec![("no password read in", 0xA3)],
        _ => Vec::new(),
    }
}

/// What the local call meets, of the above.
pub fn written(table: &[u8], call: &Call, room: usize) -> Vec<Met> {
    let Some(octets) = call.parameter().and_then(contents_of_one) else {
        return Vec::new();
    };
    let called = call.called(table, &vec![0; room]);
    let code = called.expect("a local call").code;
    match (call, code) {
        (Call::Result(named, id, _), 0 | 25) if is_asked_for(table, *named, *id) => {
            with_odd_one(("password written", code), "no digit written at", &octets)
        }
        (_, 0) if is_password(&octets) => Vec::new(),
        (Call::Begin(..) | Call::Invoke(..), 0) => vec![("no password written in", 0xA1)],
        (Call::Error(..), 0) => vec![("no password written in", 0xA3)],
        _ => Vec::new(),
    }
}

fn is_of_17(component: &Component) -> bool {
    let Component::ReturnResult { answer, .. } = component else {
        return false;
    };
    matches!(answer, Some(Answer { operation: 17, .. }))
}

/// Whether a getPassword waits under this id.
fn is_asked_for(table: &[u8], (flag, value): Named, id: i8) -> bool {
    let entry = tables::entry(table, flag, value);
    tables::peers_of(&entry).contains(&[id as u8, 18])
}

/// The contents, if it has the tag.
fn contents(element: &Element) -> Option<Vec<u8>> {
    (element.tag == TAG).then(|| element.contents.octets.clone())
}

/// The same of a parameter that is one element.
fn contents_of_one(parameter: &[u8]) -> Option<Vec<u8>> {
    let element = Element::read(&Part::whole(parameter), 0).ok()?;
    let is_all = element.whole.octets.len() == parameter.len();
    contents(&element).filter(|_| is_all)
}

fn is_password(octets: &[u8]) -> bool {
    octets.len() == 4 && octets.iter().all(u8::is_ascii_digit)
}

/// What a Password became, and where it has its one octet that is no digit, if four
/// octets have one.
fn with_odd_one(became: Met, name: &'static str, octets: &[u8]) -> Vec<Met> {
    let odd = (0..)
        .zip(octets)
        .filter(|(_, octet)| !octet.is_ascii_digit());
    let odd: Vec<u8> = odd.map(|(place, _)| place).collect();
    match odd[..] {
        [place] if octets.len() == 4 => vec![became, (name, place)],
        _ => vec![became],
    }
}
