//! Step 6: a sound component against its entry of the table.

use crate::component::{Answer, Component, Fault, Problem};
use crate::element::Element;
use crate::errors;
use crate::operation;
use crate::parameter::Text;
use crate::table::{Open, Waiting};

/// The entry after the component, or the fault. A Reject is verdict 4's.
pub fn weigh(component: &Component, entry: Open) -> Result<Open, Fault> {
    match component {
        Component::Invoke {
            id,
            linked,
            operation,
            parameter,
        } => {
            invoke(entry, *id, *linked, *operation, parameter.as_ref())
                .map_err(|n| Fault::Problem(Some(*id), Problem::Invoke(n)))?;
            Ok(with_peer(entry, *id, *operation))
        }
        Component::ReturnResult { id, answer } => {
            result(entry, *id, answer.as_ref())
                .map_err(|n| Fault::Problem(Some(*id), Problem::Result(n)))?;
            Ok(without_own(entry, *id))
        }
        Component::ReturnError { id, code, .. } => {
            error(entry, *id, *code).map_err(|n| Fault::Problem(Some(*id), Problem::Error(n)))?;
            Ok(without_own(entry, *id))
        }
        Component::Reject { .. } => Ok(entry),
    }
}

/// The text of "the invokes 60 and 61 and the result of 59".
pub fn text(component: &Component) -> Option<Text> {
    match component {
        Component::Invoke {
            operation: 60 | 61,
            parameter,
            ..
        } => Text::of(parameter.as_ref()?),
        Component::ReturnResult {
            answer:
                Some(Answer {
                    operation: operation::USSD_REQUEST,
                    parameter,
                }),
            ..
        } => Text::of(parameter.as_ref()?),
        _ => None,
    }
}

fn with_peer(entry: Open, id: i8, operation: u8) -> Open {
    match operation::waits_for_us(operation) {
        true => Open {
            peer: entry.peer.and(Waiting { id, operation }),
            ..entry
        },
        false => entry,
    }
}

/// "A result or error clears the place with its id; the others keep their order."
fn without_own(entry: Open, id: i8) -> Open {
    Open {
        own: entry.own.without(id),
        ..entry
    }
}

/// Invoke problems, in the order of step 6.
fn invoke(
    entry: Open,
    id: i8,
    linked: Option<i8>,
    operation: u8,
    parameter: Option<&Element>,
) -> Result<(), u8> {
    // "equal to any waiting peer id", 0; "problem 3 is given only when four wait"
    if entry.peer.with_id(id).is_some() {
        return Err(0);
    }
    if entry.peer.is_full() {
        return Err(3);
    }
    // "operation not served, 1"
    let need = operation::we_serve(operation).ok_or(1)?;
    if let Some(linked) = linked {
        link(entry, linked, operation)?;
    }
    // "parameter, 2"
    match need.is_met_by(parameter) {
        true => Ok(()),
        false => Err(2),
    }
}

/// "A linked id is looked up among all of ours": not there, 5; "ours not operation
/// 17, 6; linked operation not 18, 7"
fn link(entry: Open, linked: i8, operation: u8) -> Result<(), u8> {
    let ours = entry.own.with_id(linked).ok_or(5)?;
    if ours.operation != operation::REGISTER_PASSWORD {
        return Err(6);
    }
    match operation {
        operation::GET_PASSWORD => Ok(()),
        _ => Err(7),
    }
}

/// "id, result problem 0; operation other than ours, or parameter, 2": "Ours is the
/// one with the result's or error's id"
fn result(entry: Open, id: i8, answer: Option<&Answer>) -> Result<(), u8> {
    let ours = entry.own.with_id(id).ok_or(0)?;
    if answer.is_some_and(|a| a.operation != ours.operation) {
        return Err(2);
    }
    let parameter = answer.and_then(|a| a.parameter.as_ref());
    match operation::result_read(ours.operation).is_met_by(parameter) {
        true => Ok(()),
        false => Err(2),
    }
}

/// "id, error problem 0; code not listed, 2"; "directly after" it 3, where the code
/// "isn't in the list of the outstanding operation"
fn error(entry: Open, id: i8, code: u8) -> Result<(), u8> {
    let ours = entry.own.with_id(id).ok_or(0)?;
    if !operation::is_error_code(code) {
        return Err(2);
    }
    match errors::may_return(ours.operation, code) {
        true => Ok(()),
        false => Err(3),
    }
}
