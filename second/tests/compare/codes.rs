//! The error codes of 01, each with the operations that may return it: by code,
//! where the program has them by operation.

use crate::chance::Chance;
use crate::tables::OWN;

/// 001's name, MAP's number, and the operations whose lists have it.
type Listed = (&'static str, u8, &'static [u8]);

pub const LISTED: [Listed; 21] = [
    ("unknownSubscriber", 1, &[]),
    ("illegalSubscriber", 9, &[]),
    ("bearerServiceNotProvisioned", 10, &[10, 11, 12, 13, 14]),
    ("teleserviceNotProvisioned", 11, &[10, 11, 12, 13, 14]),
    ("illegalEquipment", 12, &[]),
    ("callBarred", 13, &OWN),
    ("illegalSS-Operation", 16, &[10, 11, 12, 13, 14]),
    ("ss-ErrorStatus", 17, &[10, 11, 12, 13]),
    ("ss-NotAvailable", 18, &[14]),
    ("ss-SubscriptionViolation", 19, &[12, 13, 17]),
    ("ss-Incompatibility", 20, &[10, 12]),
    ("facilityNotSupported", 21, &[]),
    ("absentSubscriber", 27, &[]),
    ("systemFailure", 34, &OWN),
    ("dataMissing", 35, &OWN),
    ("unexpectedDataValue", 36, &OWN),
    ("pw-RegistrationFailure", 37, &[17]),
    ("negativePW-Check", 38, &[12, 13, 17]),
    ("numberOfPW-AttemptsViolation", 43, &[12, 13, 17]),
    ("unknownAlphabet", 71, &[59]),
    ("ussd-Busy", 72, &[]),
];

/// The error problem, besides 0, of this code as the answer to the operation.
pub fn problem(operation: u8, code: u8) -> Option<u8> {
    match LISTED.iter().find(|(_, listed, _)| *listed == code) {
        None => Some(2),
        Some((.., by)) if !by.contains(&operation) => Some(3),
        Some(_) => None,
    }
}

/// A code of 01's table that the operation may return, or may not; any, if there is
/// no such code.
pub fn listed(c: &mut Chance, operation: u8, may_return: bool) -> u8 {
    let codes = LISTED.map(|(_, code, _)| code);
    let is_wanted = |code: &u8| problem(operation, *code).is_none() == may_return;
    let wanted: Vec<u8> = codes.into_iter().filter(is_wanted).collect();
    match wanted.is_empty() {
        true => c.pick(&codes),
        false => c.pick(&wanted),
    }
}
