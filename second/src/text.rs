//! Bytes as hex digits, and numbers as bytes.

const DIGITS: &[u8; 16] = b"0123456789ABCDEF";

/// The bytes of an argument, two hex digits each; all else and an odd digit are passed over.
pub fn bytes(argument: &[u8]) -> Vec<u8> {
    let digit = |&character: &u8| char::from(character).to_digit(16);
    let digits: Vec<u32> = argument.iter().filter_map(digit).collect();
    let pairs = digits.chunks_exact(2);
    pairs.map(|pair| (pair[0] << 4 | pair[1]) as u8).collect()
}

/// Capital hex digits of the bytes, `-` for none.
pub fn hex(bytes: &[u8]) -> String {
    if bytes.is_empty() {
        return "-".to_string();
    }
    let mut text = String::with_capacity(2 * bytes.len());
    for &byte in bytes {
        text.push(DIGITS[usize::from(byte >> 4)] as char);
        text.push(DIGITS[usize::from(byte & 0x0F)] as char);
    }
    text
}

/// The number that the last 8 bytes are, the most significant first; 0 for none.
pub fn number(bytes: &[u8]) -> u64 {
    let place = |sum, &byte| sum << 8 | u64::from(byte);
    bytes.iter().fold(0, place)
}
