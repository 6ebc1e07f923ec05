//! How much is compared: all of it, or less where an emulator runs the archive
//! (SMR_EMULATED), which is some ten times slower.

fn is_emulated() -> bool {
    std::env::var_os("SMR_EMULATED").is_some()
}

/// Whether messages with this first octet are compared: all, or those of our
/// protocol and one of each other.
pub fn takes_first(first: u8) -> bool {
    let (high, low) = (first / 16, first % 16);
    !is_emulated() || low == 0x0B || high == low
}

/// The longest row of octets of which all are compared.
pub fn longest_row() -> u32 {
    if is_emulated() {
        4
    } else {
        5
    }
}
