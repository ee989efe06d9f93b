//! The numbering of each side's sets, found by trying tapes.
//!
//! Document 01: "Each side's sets are numbered: 0 for the empty tape; then, for each numbered set in turn and each
//! symbol 0 to 15, the next set not met before gets the next number." Document 02, No. 6: "Symbols run from 0 to 31, also
//! in numbering."

use crate::book::{Book, HIGHEST_SYMBOL, SYMBOLS};
use crate::reading::{Reading, Wrong};
use crate::sets::{left_set, right_set, Set};
use crate::wrong_symbol::numbered_instead;

/// "at most 256 sets on each side"
pub const MOST_SETS: usize = 256;

/// For each symbol, the number of the next set.
pub type Row = [usize; SYMBOLS];

/// The numbered sets of one side.
#[derive(Clone, PartialEq, Eq, Debug)]
pub struct Side {
    pub sets: Vec<Set>,
    /// The row of each numbered set.
    pub rows: Vec<Row>,
}

impl Side {
    pub fn number(&self, set: Set) -> usize {
        self.sets.iter().position(|numbered| *numbered == set).unwrap_or(0)
    }

    /// For a wrong reading: the numbers met on the rows along a tape.
    pub fn numbers_along(&self, tape: &[u8]) -> Vec<usize> {
        let mut numbers = vec![0];
        for symbol in tape {
            numbers.push(self.rows[numbers[numbers.len() - 1]][*symbol as usize]);
        }
        numbers
    }
}

/// The left side: a symbol goes behind the tape, the set is the one at its end. Nothing if there are more than `most`.
pub fn left(book: &Book, most: usize, reading: Reading) -> Option<Side> {
    let behind = |tape: &Vec<u8>, symbol| [&tape[..], &[symbol]].concat();
    let at_end = |tape: &Vec<u8>| left_set(book, tape, tape.len(), reading);
    numbered(Vec::new(), behind, at_end, most, reading)
}

/// The right side: a symbol goes in front of the tape, the set is the one at its front. Nothing if there are more than
/// `most`.
pub fn right(book: &Book, most: usize, reading: Reading) -> Option<Side> {
    let front = |tape: &Vec<u8>, symbol| match reading.is(Wrong::RightRowsBehind) {
        false => [&[symbol], &tape[..]].concat(),
        true => [&tape[..], &[symbol]].concat(),
    };
    let at_front = |tape: &Vec<u8>| right_set(book, tape, 0, reading);
    numbered(Vec::new(), front, at_front, most, reading)
}

/// A side while its sets are being numbered.
struct Numbering<T, S> {
    set_of: S,
    most: usize,
    sets: Vec<Set>,
    /// For each numbered set, the tape on which it was first met.
    tapes: Vec<T>,
}

impl<T, S: Fn(&T) -> Set> Numbering<T, S> {
    /// The number of a tape's set: "the next set not met before gets the next number". Nothing if there is none left.
    fn number(&mut self, tape: T) -> Option<usize> {
        let set = (self.set_of)(&tape);
        if let Some(number) = self.sets.iter().position(|met| *met == set) {
            return Some(number);
        }
        if self.sets.len() == self.most {
            return None;
        }
        self.sets.push(set);
        self.tapes.push(tape);
        Some(self.sets.len() - 1)
    }

    /// "for each numbered set in turn and each symbol": the set's tape is tried with the symbol put to it.
    fn rows(&mut self, symbols: &[u8], put: impl Fn(&T, u8) -> T, reading: Reading) -> Option<Vec<Row>> {
        let mut rows = vec![None; self.sets.len()];
        while let Some(number) = next_without_row(&rows, reading) {
            let mut row = [0; SYMBOLS];
            for symbol in symbols {
                row[*symbol as usize] = self.number(put(&self.tapes[number], *symbol))?;
            }
            rows[number] = Some(row);
            rows.resize(self.sets.len(), None);
        }
        Some(rows.into_iter().flatten().collect())
    }
}

/// The sets of one side by number. What stands for a tape is the tape itself, or anything else that `set_of` knows the
/// set of.
pub fn numbered<T>(
    empty: T,
    put: impl Fn(&T, u8) -> T,
    set_of: impl Fn(&T) -> Set,
    most: usize,
    reading: Reading,
) -> Option<Side> {
    let mut numbering = Numbering { set_of, most, sets: Vec::new(), tapes: Vec::new() };
    numbering.number(empty)?;
    let in_order = || vec![(0..=HIGHEST_SYMBOL).collect()];
    let mut rows = Vec::new();
    for symbols in numbered_instead(reading).unwrap_or_else(in_order) {
        rows = numbering.rows(&symbols, &put, reading)?;
    }
    Some(Side { sets: numbering.sets, rows })
}

fn next_without_row(rows: &[Option<Row>], reading: Reading) -> Option<usize> {
    match reading.is(Wrong::DeepestFirst) {
        false => rows.iter().position(Option::is_none),
        true => rows.iter().rposition(Option::is_none),
    }
}
