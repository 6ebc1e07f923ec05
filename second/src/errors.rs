//! "Each operation's errors are listed in 001 clause 4.2, or in TS 29.002 where it
//! imports from MAP": all seven that we begin are imported.
//!
//! The numbers are MAP's, by 001's names: 10 bearerServiceNotProvisioned,
//! 11 teleserviceNotProvisioned, 13 callBarred, 16 illegalSS-Operation,
//! 17 ss-ErrorStatus, 18 ss-NotAvailable, 19 ss-SubscriptionViolation,
//! 20 ss-Incompatibility, 34 systemFailure, 35 dataMissing, 36 unexpectedDataValue,
//! 37 pw-RegistrationFailure, 38 negativePW-Check, 43 numberOfPW-AttemptsViolation,
//! 71 unknownAlphabet.

/// "Errors it may return", in the order of the paper; none for what we don't begin.
fn list(operation: u8) -> &'static [u8] {
    match operation {
        // registerSS
        10 => &[34, 35, 36, 10, 11, 13, 16, 17, 20],
        // eraseSS
        11 => &[34, 35, 36, 10, 11, 13, 16, 17],
        // activateSS
        12 => &[34, 35, 36, 10, 11, 13, 16, 17, 19, 20, 38, 43],
        // deactivateSS
        13 => &[34, 35, 36, 10, 11, 13, 16, 17, 19, 38, 43],
        // interrogateSS
        14 => &[34, 35, 36, 10, 11, 13, 16, 18],
        // registerPassword
        17 => &[34, 35, 36, 13, 19, 37, 38, 43],
        // processUnstructuredSS-Request
        59 => &[34, 35, 36, 71, 13],
        _ => &[],
    }
}

pub fn may_return(operation: u8, code: u8) -> bool {
    list(operation).contains(&code)
}
