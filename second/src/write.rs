//! Messages that we write.

use crate::component::Problem;
use crate::message::{CAUSE_IDENTIFIER, DISCRIMINATOR, FACILITY_IDENTIFIER};
use crate::table::Transaction;

/// "What we send carries the opposite flag."
fn first_octet(transaction: Transaction) -> u8 {
    let flag = 1 - transaction.flag;
    flag << 7 | transaction.value << 4 | DISCRIMINATOR
}

/// "We write the shortest form."
fn length(count: usize) -> Vec<u8> {
    if count < 0x80 {
        return vec![count as u8];
    }
    let octets = count.to_be_bytes();
    let octets: Vec<u8> = octets.into_iter().skip_while(|o| *o == 0).collect();
    [vec![0x80 + octets.len() as u8], octets].concat()
}

fn element(tag: u8, contents: &[u8]) -> Vec<u8> {
    [vec![tag], length(contents.len()), contents.to_vec()].concat()
}

fn number(octet: u8) -> Vec<u8> {
    element(0x02, &[octet])
}

/// A parameter is "copied as given"; "No linked id is written."
pub fn invoke(id: i8, operation: u8, parameter: &[u8]) -> Vec<u8> {
    let contents = [number(id as u8), number(operation), parameter.to_vec()];
    element(0xA1, &contents.concat())
}

/// "Without a parameter we write no 30."
pub fn result(id: i8, operation: u8, parameter: &[u8]) -> Vec<u8> {
    let answer = match parameter {
        [] => Vec::new(),
        _ => element(0x30, &[number(operation), parameter.to_vec()].concat()),
    };
    element(0xA2, &[number(id as u8), answer].concat())
}

pub fn error(id: i8, code: u8, parameter: &[u8]) -> Vec<u8> {
    let contents = [number(id as u8), number(code), parameter.to_vec()];
    element(0xA3, &contents.concat())
}

/// "Reject carries the invoke id if it was read, else 05 00."
pub fn reject(id: Option<i8>, problem: Problem) -> Vec<u8> {
    let id = id.map_or(element(0x05, &[]), |id| number(id as u8));
    let [tag, octet] = problem.octets();
    element(0xA4, &[id, element(tag, &[octet])].concat())
}

/// "Ours ends with 7F 01 00." A value over 255 makes a message that is refused.
pub fn register(transaction: Transaction, value: &[u8]) -> Vec<u8> {
    let length = value.len() as u8;
    let head = [first_octet(transaction), 0x3B, FACILITY_IDENTIFIER, length];
    [&head[..], value, &[0x7F, 0x01, 0x00]].concat()
}

/// "FACILITY: length, Facility value, no 1C."
pub fn facility(transaction: Transaction, value: &[u8]) -> Vec<u8> {
    let head = [first_octet(transaction), 0x3A, value.len() as u8];
    [&head[..], value].concat()
}

/// "the two octets of RELEASE COMPLETE"
pub fn release(transaction: Transaction) -> Vec<u8> {
    vec![first_octet(transaction), 0x2A]
}

/// "optional cause, 08 02 E0 then 128 plus the cause"
pub fn release_with_cause(transaction: Transaction, cause: u8) -> Vec<u8> {
    let cause = [CAUSE_IDENTIFIER, 0x02, 0xE0, 128 + cause];
    [release(transaction), cause.to_vec()].concat()
}

/// "RELEASE COMPLETE, Facility with Reject"
pub fn release_with_reject(transaction: Transaction, id: Option<i8>, problem: Problem) -> Vec<u8> {
    let value = reject(id, problem);
    let head = [FACILITY_IDENTIFIER, value.len() as u8];
    [release(transaction), head.to_vec(), value].concat()
}

/// "buffer octets after what is written stay as lent"
pub fn lay(message: &[u8], buffer: &[u8]) -> Vec<u8> {
    [message, &buffer[message.len()..]].concat()
}
