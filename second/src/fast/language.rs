//! The language of one part of one rule, each position of the tape decided with what is known of the others.

use super::arcs::{states_such_that, Arcs};
use crate::book::{Book, State};
use crate::sets::Set;

/// The words that lead from a start state to an accept state of one part.
pub struct Language<'a> {
    arcs: &'a Arcs,
    starts: Set,
    accepts: Set,
}

impl<'a> Language<'a> {
    pub fn of(book: &Book, arcs: &'a Arcs, rule: usize, part: u8) -> Language<'a> {
        let of_part = |state: &State| state.rule == rule && state.part == part;
        Language {
            arcs,
            starts: states_such_that(book, |state| of_part(state) && state.start),
            accepts: states_such_that(book, |state| of_part(state) && state.accept),
        }
    }

    fn accepts(&self, live: Set) -> bool {
        live & self.accepts != 0
    }

    /// For each position of the tape, whether some word that ends there is in the language.
    pub fn ending_at_each(&self, tape: &[u8]) -> Vec<bool> {
        let mut live = self.starts;
        let mut holds = vec![self.accepts(live)];
        for symbol in tape {
            live = self.arcs.step(live, *symbol) | self.starts;
            holds.push(self.accepts(live));
        }
        holds
    }

    /// For each position of the tape, whether some word that begins there is in the language.
    pub fn beginning_at_each(&self, tape: &[u8]) -> Vec<bool> {
        let mut leading = self.accepts;
        let mut holds = vec![leading & self.starts != 0];
        for symbol in tape.iter().rev() {
            leading = self.arcs.step_back(leading, *symbol) | self.accepts;
            holds.push(leading & self.starts != 0);
        }
        holds.reverse();
        holds
    }

    /// The ends j from `begin` on such that the tape from `begin` to j is in the language, smallest first.
    pub fn ends_from(&self, tape: &[u8], begin: usize) -> Vec<usize> {
        let mut ends = Vec::new();
        let mut live = self.starts;
        for end in begin..=tape.len() {
            if self.accepts(live) {
                ends.push(end);
            }
            if live == 0 || end == tape.len() {
                break;
            }
            live = self.arcs.step(live, tape[end]);
        }
        ends
    }
}
