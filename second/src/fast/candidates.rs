//! Candidates and taken stretches with the contexts of every position known beforehand, start by start: a tape at the
//! limits has more than a hundred million candidates.

use std::ops::RangeInclusive;

use super::arcs::Arcs;
use super::language::Language;
use crate::book::Book;
use crate::candidates::Stretch;
use crate::record::{FOCUS, LEFT, RIGHT};
use crate::taken::longest;

pub struct Candidates<'a> {
    tape: &'a [u8],
    rules: Vec<Rule<'a>>,
}

/// One rule on the tape.
struct Rule<'a> {
    focus: Language<'a>,
    /// For each position, whether the left and the right context hold there.
    left: Vec<bool>,
    right: Vec<bool>,
}

impl<'a> Candidates<'a> {
    pub fn of(book: &Book, arcs: &'a Arcs, tape: &'a [u8]) -> Candidates<'a> {
        let rule = |rule: usize| Rule {
            focus: Language::of(book, arcs, rule, FOCUS),
            left: Language::of(book, arcs, rule, LEFT).ending_at_each(tape),
            right: Language::of(book, arcs, rule, RIGHT).beginning_at_each(tape),
        };
        Candidates { tape, rules: (0..book.words.len()).map(rule).collect() }
    }

    /// The ends of one rule's candidates at one start.
    fn ends(&self, rule: &Rule, start: usize) -> Vec<usize> {
        if !rule.left[start] {
            return Vec::new();
        }
        rule.focus.ends_from(self.tape, start).into_iter().filter(|end| rule.right[*end]).collect()
    }

    /// Every position and the tape's end, where an empty candidate may stand.
    fn starts(&self) -> RangeInclusive<usize> {
        0..=self.tape.len()
    }

    fn at(&self, start: usize) -> Vec<Stretch> {
        let ends = |rule: usize| self.ends(&self.rules[rule], start).into_iter();
        (0..self.rules.len()).flat_map(|rule| ends(rule).map(move |end| Stretch { rule, start, end })).collect()
    }

    pub fn count(&self) -> usize {
        self.starts().map(|start| self.rules.iter().map(|rule| self.ends(rule, start).len()).sum::<usize>()).sum()
    }

    pub fn all(&self) -> Vec<Stretch> {
        self.starts().flat_map(|start| self.at(start)).collect()
    }

    pub fn taken(&self) -> Vec<Stretch> {
        let mut taken: Vec<Stretch> = Vec::new();
        let mut from = 0;
        while let Some(stretch) = (from..=self.tape.len()).find_map(|start| longest(&self.at(start))) {
            taken.push(stretch);
            // Past an empty stretch too: its start is not taken twice.
            from = stretch.end.max(stretch.start + 1);
        }
        taken
    }
}
