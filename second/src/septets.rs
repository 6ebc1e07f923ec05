//! Septets in octets, as 03.38 packs them: a sender's way, and a receiver's.

pub const CR: u8 = 0x0D;

const SEPTET: usize = 7;
const OCTET: usize = 8;

/// "septet i is the bits 7i to 7i+6 of the string, counted from the low bit of its
/// first octet"; one to six bits left over "are not looked at".
pub fn unpack(string: &[u8]) -> Vec<u8> {
    let count = OCTET * string.len() / SEPTET;
    let bit = |place: usize| string[place / OCTET] >> (place % OCTET) & 1;
    let septet = |i: usize| number((0..SEPTET).map(|j| bit(SEPTET * i + j)));
    (0..count).map(septet).collect()
}

/// These septets and no more; spare bits are zero.
pub fn pack(septets: &[u8]) -> Vec<u8> {
    let bits = SEPTET * septets.len();
    let bit = |place: usize| match place < bits {
        true => septets[place / SEPTET] >> (place % SEPTET) & 1,
        false => 0,
    };
    let octet = |k: usize| number((0..OCTET).map(|j| bit(OCTET * k + j)));
    (0..bits.div_ceil(OCTET)).map(octet).collect()
}

/// Of bits, the low one first.
fn number(bits: impl DoubleEndedIterator<Item = u8>) -> u8 {
    bits.rev().fold(0, |number, bit| 2 * number + bit)
}

/// "a sender with 8n - 1 characters has seven spare bits at the end and fills them
/// with CR"; "If the text itself ends with a CR on an octet boundary, the sender adds
/// another CR."
pub fn send(septets: &[u8]) -> Vec<u8> {
    let has_spare_bits = septets.len() % 8 == 7;
    let ends_on_boundary = septets.len().is_multiple_of(8);
    let adds_cr = has_spare_bits || (ends_on_boundary && septets.last() == Some(&CR));
    let mut sent = septets.to_vec();
    sent.extend(adds_cr.then_some(CR));
    pack(&sent)
}

/// "A receiver removes the final CR where the string ends on an octet boundary with CR
/// as its last septet, that is where the number of octets is a multiple of 7; one CR,
/// and in no other case."
pub fn receive(string: &[u8]) -> Vec<u8> {
    let mut septets = unpack(string);
    let ends_on_boundary = string.len().is_multiple_of(7);
    if ends_on_boundary && septets.last() == Some(&CR) {
        septets.pop();
    }
    septets
}
