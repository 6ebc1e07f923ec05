//! The operations and error codes of 01.

use crate::parameter::{Kind, Need};

/// "no answer, never outstanding"
pub const FORWARD_CHECK: u8 = 38;
pub const GET_PASSWORD: u8 = 18;
pub const REGISTER_PASSWORD: u8 = 17;
pub const USSD_REQUEST: u8 = 59;

/// "Operations we begin: ... A parameter is required in each."
pub fn we_begin(operation: u8) -> Option<Need> {
    match operation {
        10 => Some(Need::Required(Kind::AnyElement)),
        11..=14 => Some(Need::Required(Kind::SsForBs)),
        REGISTER_PASSWORD => Some(Need::Required(Kind::ServiceCode)),
        USSD_REQUEST => Some(Need::Required(Kind::Ussd)),
        _ => None,
    }
}

/// "Operations we serve: 18 getPassword (Guidance), 60 ... and 61 ...
/// (USSD-Arg), 38 ... (no parameter ...)."
pub fn we_serve(operation: u8) -> Option<Need> {
    match operation {
        GET_PASSWORD => Some(Need::Required(Kind::Guidance)),
        60 | 61 => Some(Need::Required(Kind::Ussd)),
        FORWARD_CHECK => Some(Need::Nothing),
        _ => None,
    }
}

/// "peer ones 18, 60, 61": those that wait for our answer.
pub fn waits_for_us(operation: u8) -> bool {
    operation != FORWARD_CHECK && we_serve(operation).is_some()
}

/// "Results read: 17 requires a Password; 59 takes USSD-Res or none; 10 to 14
/// take any one element or none."
pub fn result_read(operation: u8) -> Need {
    match operation {
        REGISTER_PASSWORD => Need::Required(Kind::Password),
        USSD_REQUEST => Need::Optional(Kind::Ussd),
        _ => Need::Optional(Kind::AnyElement),
    }
}

/// "Results we write: 18 a Password; 60 USSD-Res or none; 61 none."
pub fn result_written(operation: u8) -> Need {
    match operation {
        GET_PASSWORD => Need::Required(Kind::Password),
        60 => Need::Optional(Kind::Ussd),
        _ => Need::Nothing,
    }
}

/// "Error codes: 1, 9 to 13, 16 to 21, 27, 34 to 38, 43, 71, 72."
pub fn is_error_code(code: u8) -> bool {
    matches!(code, 1 | 9..=13 | 16..=21 | 27 | 34..=38 | 43 | 71 | 72)
}
