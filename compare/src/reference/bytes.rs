//! What lines and records are made of: two digits a byte, bytes that sum to 0, entries of 3 bytes.

use crate::refusal::Refusal;

const DIGITS: &[u8; 16] = b"0123456789ABCDEF";

/// Stands for a character that is no digit; a digit leaves the high bits 0.
const OTHER: u8 = 255;

/// The value of each character.
const VALUES: [u8; 256] = {
    let mut values = [OTHER; 256];
    let mut value = 0;
    while value < DIGITS.len() {
        values[DIGITS[value] as usize] = value as u8;
        value += 1;
    }
    values
};

/// Puts down two digits 0-9 A-F a byte, as far as there is room.
#[inline]
pub fn write_digits(bytes: &[u8], digits: &mut [u8]) {
    for (digits, &byte) in digits.chunks_exact_mut(2).zip(bytes) {
        digits[0] = DIGITS[usize::from(byte >> 4)];
        digits[1] = DIGITS[usize::from(byte & 15)];
    }
}

/// Reads two digits a byte, as far as there is room. Returns whether all of them are digits.
#[inline]
pub fn read_digits(digits: &[u8], bytes: &mut [u8]) -> bool {
    let mut all = 0;
    for (byte, digits) in bytes.iter_mut().zip(digits.chunks_exact(2)) {
        let [high, low] = [digits[0], digits[1]].map(|digit| VALUES[usize::from(digit)]);
        *byte = high << 4 | low & 15;
        all |= high | low;
    }
    all != OTHER
}

#[inline]
pub fn sum(bytes: &[u8]) -> u8 {
    bytes.iter().fold(0, |sum, &byte| sum.wrapping_add(byte))
}

/// The last byte, "such that all bytes sum to 0 mod 256".
#[inline]
pub fn last_byte(others: &[u8]) -> u8 {
    sum(others).wrapping_neg()
}

/// An initial entry, big-endian. Refusal 18: it does not fit.
#[inline]
pub fn initial_bytes(entry: u32) -> Result<[u8; 3], Refusal> {
    match entry.to_be_bytes() {
        [0, bytes @ ..] => Ok(bytes),
        _ => Err(Refusal::Entry),
    }
}

/// An offset, big-endian, in two's complement. Refusal 18: it does not fit.
#[inline]
pub fn offset_bytes(offset: i32) -> Result<[u8; 3], Refusal> {
    if !(-(1 << 23)..1 << 23).contains(&offset) {
        return Err(Refusal::Entry);
    }
    let [_, bytes @ ..] = offset.to_be_bytes();
    Ok(bytes)
}

#[inline]
pub fn initial_entry([e2, e1, e0]: [u8; 3]) -> u32 {
    u32::from_be_bytes([0, e2, e1, e0])
}

/// The shift back down carries the sign of the 3 bytes.
#[inline]
pub fn offset_entry([e2, e1, e0]: [u8; 3]) -> i32 {
    i32::from_be_bytes([e2, e1, e0, 0]) >> 8
}
