//! The sets of both sides, each worked out from the one beside it.

use super::arcs::{states_such_that, Arcs};
use crate::book::Book;
use crate::numbering::{numbered, Side};
use crate::reading::Reading;
use crate::record::{FOCUS, LEFT, RIGHT};
use crate::sets::Set;

/// The numbered left sets, unless there are more than `most`. A set stands for the tapes it is met on.
pub fn left(book: &Book, most: usize, reading: Reading) -> Option<Side> {
    let arcs = Arcs::of(book);
    let starts = states_such_that(book, |state| state.part == LEFT && state.start);
    numbered(starts, |set, symbol| starts | arcs.step(*set, symbol), |set| *set, most, reading)
}

/// The numbered right sets, unless there are more than `most`.
pub fn right(book: &Book, most: usize, reading: Reading) -> Option<Side> {
    let steps = RightSteps::of(book);
    numbered(steps.ended(0), |set, symbol| steps.before(*set, symbol), |set| *set, most, reading)
}

/// The right set at each position of a tape.
pub fn right_sets(book: &Book, tape: &[u8]) -> Vec<Set> {
    let steps = RightSteps::of(book);
    let mut sets = vec![steps.ended(0)];
    for symbol in tape.iter().rev() {
        sets.push(steps.before(sets[sets.len() - 1], *symbol));
    }
    sets.reverse();
    sets
}

/// What leads from one right set to the one a symbol before it.
struct RightSteps {
    arcs: Arcs,
    /// The right-part states that accept.
    accepts: Set,
    /// For each rule, the start states of its right part and the accept states of its focus.
    rules: Vec<(Set, Set)>,
}

impl RightSteps {
    fn of(book: &Book) -> RightSteps {
        let starts = |rule| states_such_that(book, |state| state.rule == rule && state.part == RIGHT && state.start);
        let foci = |rule| states_such_that(book, |state| state.rule == rule && state.part == FOCUS && state.accept);
        RightSteps {
            arcs: Arcs::of(book),
            accepts: states_such_that(book, |state| state.part == RIGHT && state.accept),
            rules: (0..book.words.len()).map(|rule| (starts(rule), foci(rule))).collect(),
        }
    }

    /// The set with the states added whose runs may end here.
    fn ended(&self, set: Set) -> Set {
        let set = set | self.accepts;
        let fitting = self.rules.iter().filter(|(starts, _)| set & starts != 0);
        fitting.fold(set, |set, (_, foci)| set | foci)
    }

    fn before(&self, set: Set, symbol: u8) -> Set {
        self.ended(self.arcs.step_back(set, symbol))
    }
}
