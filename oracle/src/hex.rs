//! Lines of answers: a letter, the input's bytes, the output's bytes.

use std::io::{self, Write};

const DIGITS: &[u8; 16] = b"0123456789ABCDEF";

/// Two digits a byte.
pub fn digits(bytes: &[u8]) -> String {
    let mut text = String::with_capacity(2 * bytes.len());
    for byte in bytes {
        text.push(DIGITS[usize::from(byte >> 4)].into());
        text.push(DIGITS[usize::from(byte & 15)].into());
    }
    text
}

/// The same, but `-` for no bytes at all.
pub fn field(bytes: &[u8]) -> String {
    match bytes {
        [] => "-".to_string(),
        _ => digits(bytes),
    }
}

/// The bytes that such digits stand for.
pub fn bytes(digits: &str) -> Vec<u8> {
    if digits == "-" {
        return Vec::new();
    }
    (0..digits.len())
        .step_by(2)
        .map(|at| u8::from_str_radix(&digits[at..at + 2], 16).expect("hex digits"))
        .collect()
}

/// The same from a text that may be anything: none if `field` writes it
/// otherwise.
pub fn exact(text: &str) -> Option<Vec<u8>> {
    let even = text.len() & 1 == 0 && text.bytes().all(|digit| DIGITS.contains(&digit));
    if text != "-" && (!even || text.is_empty()) {
        return None;
    }
    Some(bytes(text))
}

pub fn line(letter: char, input: &[u8], output: &[u8], out: &mut dyn Write) -> io::Result<()> {
    writeln!(out, "{letter} {} {}", digits(input), digits(output))
}

/// Two bytes, most significant first.
pub fn word(bytes: &[u8]) -> u16 {
    u16::from_be_bytes([bytes[0], bytes[1]])
}
