//! Big-endian numbers: "All numbers are big-endian."

/// The number that up to eight bytes hold.
pub fn number(bytes: &[u8]) -> u64 {
    bytes
        .iter()
        .fold(0, |value, byte| (value << 8) | u64::from(*byte))
}

/// The number that up to four bytes hold, for fields that stay 32 bits wide.
pub fn number32(bytes: &[u8]) -> u32 {
    bytes
        .iter()
        .fold(0, |value, byte| (value << 8) | u32::from(*byte))
}

/// XORs `other` into `into`, byte by byte.
pub fn xor_into(into: &mut [u8], other: &[u8]) {
    for (byte, more) in into.iter_mut().zip(other) {
        *byte ^= more;
    }
}
