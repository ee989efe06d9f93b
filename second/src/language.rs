//! The language of one part of one rule: the words of its runs from a start state to an accept state.

use crate::book::{Book, PartStates};
use crate::reading::{Reading, Wrong};
use crate::run;

/// One part of one rule: "A part may have several start and accept states, or none."
pub struct Language<'a> {
    book: &'a Book,
    reading: Reading,
    states: &'a [usize],
    pub starts: &'a [usize],
    accepts: &'a [usize],
}

impl<'a> Language<'a> {
    pub fn of(book: &'a Book, rule: usize, part: u8, reading: Reading) -> Language<'a> {
        let PartStates { states, starts, accepts } = &book.parts[rule][part as usize];
        let first = |states: &'a [usize]| &states[..states.len().min(1)];
        Language {
            book,
            reading,
            states,
            starts: reading.value(starts, Wrong::OneStart, first(starts)),
            accepts: reading.value(accepts, Wrong::OneAccept, first(accepts)),
        }
    }

    /// Whether the part has no states. "A part without states accepts no word"
    pub fn is_bare(&self) -> bool {
        self.states.is_empty()
    }

    /// Whether a word is in the language.
    pub fn holds(&self, word: &[u8]) -> bool {
        let ends = |start: &usize| run::ends(self.book, *start, word, self.reading);
        self.starts.iter().flat_map(ends).any(|end| self.accepts.contains(&end))
    }

    /// Whether "some word ending at i" is in the language: every beginning is tried.
    pub fn holds_ending_at(&self, tape: &[u8], i: usize) -> bool {
        (0..=i).any(|begin| self.holds(&tape[begin..i]))
    }

    /// Whether "some word beginning at j" is in the language: every end is tried.
    pub fn holds_beginning_at(&self, tape: &[u8], j: usize) -> bool {
        (j..=tape.len()).any(|end| self.holds(&tape[j..end]))
    }
}
