//! Candidates: document 01, "Which stretches are replaced", and document 02, No. 5. What wrong readings make of the
//! empty ones is in `wrong_insertion`.

use crate::book::Book;
use crate::language::Language;
use crate::reading::{Reading, Wrong};
use crate::record::{FOCUS, LEFT, RIGHT};

/// A stretch of the tape "from i up to and not including j", and the rule it is a candidate of.
#[derive(Clone, Copy, PartialEq, Eq, Debug)]
pub struct Stretch {
    pub rule: usize,
    pub start: usize,
    pub end: usize,
}

impl Stretch {
    /// Document 02, No. 5: "a candidate's start equal its end"
    pub fn is_empty(&self) -> bool {
        self.start == self.end
    }
}

/// One tape under one book; whether a stretch is a candidate is worked out whenever it is asked.
pub struct Candidates<'a> {
    pub book: &'a Book,
    pub tape: &'a [u8],
    pub reading: Reading,
}

impl Candidates<'_> {
    pub fn rules(&self) -> std::ops::Range<usize> {
        0..self.book.words.len()
    }

    pub fn language(&self, rule: usize, part: u8) -> Language<'_> {
        Language::of(self.book, rule, part, self.reading)
    }

    /// All candidates, start by start and there rule by rule.
    pub fn all(&self) -> Vec<Stretch> {
        (0..=self.tape.len()).flat_map(|start| self.at(start)).collect()
    }

    fn at(&self, start: usize) -> Vec<Stretch> {
        let rules = self.rules().filter(|rule| self.left_holds(*rule, start));
        let here = rules.flat_map(|rule| self.under_left(rule, start)).collect();
        self.with_empty_ones_read(start, here)
    }

    /// The candidates of one rule at one start, if its left context is taken to hold there.
    pub fn under_left(&self, rule: usize, start: usize) -> Vec<Stretch> {
        self.foci(rule, start).into_iter().filter(|focus| self.right_holds(rule, focus.end)).collect()
    }

    /// The stretches at one start with "t from i to j is in its focus language", whatever the contexts say;
    /// "(0 ≤ i < j ≤ n)". Document 02, No. 5: "The focus may now be empty and a candidate's start equal its end."
    pub fn foci(&self, rule: usize, start: usize) -> Vec<Stretch> {
        let focus = self.language(rule, FOCUS);
        let ends = (start..=self.tape.len()).filter(|end| focus.holds(&self.tape[start..*end]));
        ends.map(|end| Stretch { rule, start, end }).collect()
    }

    /// "some word ending at i is in r's left language"
    pub fn left_holds(&self, rule: usize, i: usize) -> bool {
        match self.reading.is(Wrong::OtherLeft) {
            false => self.left_context(rule, i),
            true => self.rules().any(|other| self.left_context(other, i)),
        }
    }

    fn left_context(&self, rule: usize, i: usize) -> bool {
        let left = self.language(rule, LEFT);
        if self.reading.is(Wrong::EmptyPartHolds) && left.is_bare() {
            return true;
        }
        if self.reading.is(Wrong::LeftAnchored) {
            return left.holds(&self.tape[..i]);
        }
        if self.reading.is(Wrong::LeftNotEmpty) {
            return (0..i).any(|begin| left.holds(&self.tape[begin..i]));
        }
        left.holds_ending_at(self.tape, i)
    }

    /// "some word beginning at j is in its right language"
    pub fn right_holds(&self, rule: usize, j: usize) -> bool {
        let right = self.language(rule, RIGHT);
        if self.reading.is(Wrong::EmptyPartHolds) && right.is_bare() {
            return true;
        }
        if self.reading.is(Wrong::RightAnchored) {
            return right.holds(&self.tape[j..]);
        }
        if self.reading.is(Wrong::RightNotEmpty) {
            return (j + 1..=self.tape.len()).any(|end| right.holds(&self.tape[j..end]));
        }
        right.holds_beginning_at(self.tape, j)
    }
}
