//! Symbols as digits: document 02, No. 6, "0 to 9 and a to v".

use crate::book::{HIGHEST_SYMBOL, SYMBOLS};

/// The symbol that a character stands for, if it is a digit.
pub fn read(character: u8) -> Option<u8> {
    let symbol = match character {
        b'0'..=b'9' => character - b'0',
        b'a'..=b'z' => character - b'a' + 10,
        _ => return None,
    };
    (symbol <= HIGHEST_SYMBOL).then_some(symbol)
}

/// The digit of a symbol, unless it is a bad one.
pub fn of(symbol: u8) -> Option<char> {
    char::from_digit(symbol.into(), SYMBOLS as u32)
}

/// A tape for reading: one digit a symbol, and every bad symbol as <number>.
pub fn shown(tape: &[u8]) -> String {
    tape.iter().map(|symbol| of(*symbol).map_or(format!("<{symbol}>"), String::from)).collect()
}
