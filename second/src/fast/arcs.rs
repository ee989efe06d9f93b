//! The arcs of a whole book as a table.

use crate::book::{Book, SYMBOLS};
use crate::reading::Reading;
use crate::sets::Set;

/// For a state and a symbol, the states one arc further and one arc before.
pub struct Arcs {
    next: Vec<[Set; SYMBOLS]>,
    before: Vec<[Set; SYMBOLS]>,
}

impl Arcs {
    pub fn of(book: &Book) -> Arcs {
        let none = vec![[0; SYMBOLS]; book.states.len()];
        let mut arcs = Arcs { next: none.clone(), before: none };
        for arc in &book.arcs {
            for symbol in (0..SYMBOLS as u8).filter(|symbol| arc.open(*symbol, Reading::TRUE)) {
                arcs.next[arc.from][symbol as usize] |= 1 << arc.to;
                arcs.before[arc.to][symbol as usize] |= 1 << arc.from;
            }
        }
        arcs
    }

    /// The states to which the symbol leads from the set.
    pub fn step(&self, set: Set, symbol: u8) -> Set {
        joined(&self.next, set, symbol)
    }

    /// The states from which the symbol leads into the set.
    pub fn step_back(&self, set: Set, symbol: u8) -> Set {
        joined(&self.before, set, symbol)
    }
}

fn joined(table: &[[Set; SYMBOLS]], set: Set, symbol: u8) -> Set {
    let mut joined = 0;
    let mut left = set;
    while left != 0 {
        joined |= table[left.trailing_zeros() as usize][symbol as usize];
        left &= left - 1;
    }
    joined
}

/// The states of a book that are wanted, as a set.
pub fn states_such_that(book: &Book, wanted: impl Fn(&crate::book::State) -> bool) -> Set {
    let numbers = 0..book.states.len();
    numbers.filter(|number| wanted(&book.states[*number])).map(|number| 1 << number).sum()
}
