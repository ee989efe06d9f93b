//! Sets of states: document 01, "The two automata".
//!
//! A set is worked out from its tape by following runs, each from its own beginning, to each of its ends; no set is
//! worked out from another, and no row is looked up.

use crate::book::Book;
use crate::language::Language;
use crate::reading::{Reading, Wrong};
use crate::record::{FOCUS, LEFT, RIGHT};
use crate::run::{self, leads_to_acceptance, States};

/// "Sets of states are 64-bit numbers, state s worth 2^s."
pub type Set = u64;

/// The number of a set of states, each of which is named once.
fn number(states: impl Iterator<Item = usize>) -> Set {
    states.map(|state| 1 << state).sum()
}

fn states_of(book: &Book, part: u8) -> States {
    (0..book.states.len()).filter(|state| book.states[*state].part == part).collect()
}

/// "The left set at i holds the left-part states reached at i by runs from a start state begun at any position up
/// to i."
pub fn left_set(book: &Book, tape: &[u8], i: usize, reading: Reading) -> Set {
    let reached = reached_at(book, LEFT, tape, i, reading);
    match reading.is(Wrong::LeftSetWithFocus) {
        false => number(reached.into_iter()),
        true => number(reached.into_iter().chain(reached_at(book, FOCUS, tape, i, reading))),
    }
}

/// The states of a part that runs from a start state of it, begun at any position up to i, reach at i.
fn reached_at(book: &Book, part: u8, tape: &[u8], i: usize, reading: Reading) -> States {
    let languages = (0..book.words.len()).map(|rule| Language::of(book, rule, part, reading));
    let starts: States = languages.flat_map(|language| language.starts.iter().copied()).collect();
    let mut reached = States::new();
    for begin in 0..=reading.value(i, Wrong::LeftFromFront, 0) {
        for start in &starts {
            reached.extend(run::ends(book, *start, &tape[begin..i], reading));
        }
    }
    // Only a wrong reading lets a run leave its part.
    states_of(book, part).into_iter().filter(|state| reached.contains(state)).collect()
}

/// "The right set at i holds the right-part states from which some word beginning at i leads to acceptance, and the
/// focus states from which a stretch i to k (k ≥ i) leads to acceptance with the right language of that rule holding
/// at k."
pub fn right_set(book: &Book, tape: &[u8], i: usize, reading: Reading) -> Set {
    let right = states_of(book, RIGHT).into_iter().filter(|state| right_state_fits(book, *state, tape, i, reading));
    let focus = states_of(book, FOCUS).into_iter().filter(|state| focus_state_fits(book, *state, tape, i, reading));
    number(right.chain(focus))
}

/// "from which some word beginning at i leads to acceptance": every end is tried.
fn right_state_fits(book: &Book, state: usize, tape: &[u8], i: usize, reading: Reading) -> bool {
    let first = reading.value(i, Wrong::RightSetAnchored, tape.len());
    (first..=tape.len()).any(|end| leads_to_acceptance(book, state, &tape[i..end], reading))
}

/// "from which a stretch i to k (k ≥ i) leads to acceptance with the right language of that rule holding at k": every
/// k is tried.
fn focus_state_fits(book: &Book, state: usize, tape: &[u8], i: usize, reading: Reading) -> bool {
    let first = reading.value(i, Wrong::FocusEndLater, i + 1);
    (first..=tape.len()).any(|k| {
        leads_to_acceptance(book, state, &tape[i..k], reading)
            && right_language_holds(book, book.states[state].rule, tape, k, reading)
    })
}

fn right_language_holds(book: &Book, rule: usize, tape: &[u8], k: usize, reading: Reading) -> bool {
    let holds = |rule: usize| Language::of(book, rule, RIGHT, reading).holds_beginning_at(tape, k);
    if reading.is(Wrong::FocusWithoutRight) {
        return true;
    }
    match reading.is(Wrong::OtherRight) {
        false => holds(rule),
        true => (0..book.words.len()).any(holds),
    }
}
