//! The limit: two bare table walks over a tape, by rows that stand already. Nothing is looked for and nothing is written but the scratch;
//! each step waits for the one before, so a rewriter with two passes cannot be faster than this.

use crate::answer::{PAIRS, SYMBOLS};

/// The number of the left set at the tape's end, so that the forward walk is not left out.
pub fn two_walks(rows: &[u8], tape: &[u8], scratch: &mut [u8]) -> u8 {
    let left: &[u8; PAIRS] = rows[..PAIRS].try_into().expect("the left rows");
    let right: &[u8; PAIRS] = rows[PAIRS..2 * PAIRS].try_into().expect("the right rows");
    scratch[tape.len()] = 0;
    let mut number = 0;
    for (symbol, place) in tape.iter().zip(&mut scratch[..tape.len()]).rev() {
        number = step(right, number, *symbol);
        *place = number;
    }
    tape.iter().fold(0, |number, symbol| step(left, number, *symbol))
}

fn step(rows: &[u8; PAIRS], number: u8, symbol: u8) -> u8 {
    rows[number as usize * SYMBOLS + symbol as usize % SYMBOLS]
}
