//! Files that are taken part by part (BOARD-FILES; FRAME-FILES).

use crate::message::number;

/// The bytes of a file not yet taken.
pub struct Rest<'a>(pub &'a [u8]);

impl<'a> Rest<'a> {
    /// Takes so many bytes, nothing where the file is cut short (BOARD-FILES; FRAME-FILES).
    pub fn bytes(&mut self, count: usize) -> Option<&'a [u8]> {
        if self.0.len() < count {
            return None;
        }
        let (taken, rest) = self.0.split_at(count);
        self.0 = rest;
        Some(taken)
    }

    /// Takes a number of so many bytes, high byte first (BOARD-FILES; FRAME-FILES).
    pub fn number(&mut self, count: usize) -> Option<u64> {
        self.bytes(count).map(number)
    }

    /// Takes such a number, nothing where it is above the most (BOARD-FILES; FRAME-FILES).
    pub fn at_most(&mut self, count: usize, most: u64) -> Option<u64> {
        self.number(count).filter(|number| *number <= most)
    }
}

/// A field of a line, or `-` where it is empty (BOARD-FILES; FRAME-FILES).
pub fn or_dash(field: String) -> String {
    if field.is_empty() {
        return "-".to_string();
    }
    field
}

/// Bytes in upper-case hexadecimal (BOARD-FILES; FRAME-FILES).
pub fn hexadecimal(bytes: &[u8]) -> String {
    let mut digits = String::new();
    for byte in bytes {
        digits.push_str(&format!("{byte:02X}"));
    }
    digits
}
