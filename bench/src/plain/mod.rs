//! The same two passes in plain Rust: the same replies, buffers and answers, without a proof and without `unsafe`. Arcs
//! are read from the book's bytes; sets are 64-bit numbers.

mod account;
mod check;
mod heat;
mod numbering;
mod outline;
mod passes;
mod refusals;
mod stepping;
mod walk;

use crate::answer::{Accounted, Built, Rewritten, MOST_SETS, PAIRS, ROW_BYTES, SYMBOLS};
use crate::lent::Lent;
use outline::Outline;

pub use check::check;
pub use heat::heat;

/// A reply with its place.
type Refusal = (u8, usize);

pub fn build(book: &[u8], lent: &mut Lent) -> Built {
    match make_sets(book, &mut lent.rows, &mut lent.sets) {
        Ok((_, left, right)) => Built { reply: 0, place: 0, left, right },
        Err((reply, place)) => Built { reply, place, left: 0, right: 0 },
    }
}

pub fn rewrite(book: &[u8], tape: &[u8], lent: &mut Lent) -> Rewritten {
    let Lent { rows, sets, scratch, out, origins, .. } = lent;
    rewritten(make_ready(book, tape, rows, sets, scratch).and_then(|outline| {
        passes::finish(&Ready { book, outline: &outline, tape, rows, sets, scratch }, out, origins)
    }))
}

/// The answer of REWRITE, by the output's length and the stretches taken.
fn rewritten(finished: Result<(usize, usize), Refusal>) -> Rewritten {
    match finished {
        Ok((length, taken)) => Rewritten { reply: 0, place: 0, length, taken },
        Err((reply, place)) => Rewritten { reply, place, length: 0, taken: 0 },
    }
}

pub fn account(book: &[u8], tape: &[u8], lent: &mut Lent) -> Accounted {
    let Lent { rows, sets, scratch, lines, .. } = lent;
    let listed = make_ready(book, tape, rows, sets, scratch)
        .and_then(|outline| account::list(&Ready { book, outline: &outline, tape, rows, sets, scratch }, lines));
    match listed {
        Ok(candidates) => Accounted { reply: 0, place: 0, candidates },
        Err((reply, place)) => Accounted { reply, place, candidates: 0 },
    }
}

/// The focus sets of the walk from the front of a tape: for the books' own test, and not timed.
pub fn focus_sets(book: &[u8], tape: &[u8]) -> Vec<u64> {
    let Lent { mut rows, mut sets, mut scratch, .. } = Lent::for_lines(0);
    let outline = make_ready(book, tape, &mut rows, &mut sets, &mut scratch).expect("a book that is accepted");
    let ready = Ready { book, outline: &outline, tape, rows: &rows, sets: &sets, scratch: &scratch };
    let mut met = Vec::new();
    ready.walk(0, ready.sets[0], |_, set, _| met.push(set));
    met
}

/// What the forward passes read: all of it stands after `make_ready`.
struct Ready<'a> {
    book: &'a [u8],
    outline: &'a Outline,
    tape: &'a [u8],
    rows: &'a [u8],
    sets: &'a [u64],
    scratch: &'a [u8],
}

impl Ready<'_> {
    fn right_set(&self, i: usize) -> u64 {
        self.sets[MOST_SETS + self.scratch[i] as usize]
    }

    /// The number of the left set one symbol on.
    fn left_step(&self, number: usize, symbol: u8) -> usize {
        self.rows[SYMBOLS * number + symbol as usize] as usize
    }
}

/// Check, workspace, build: the outline, and how many sets each side has.
fn make_sets(book: &[u8], rows: &mut [u8], sets: &mut [u64]) -> Result<(Outline, usize, usize), Refusal> {
    refusals::of_book(book)?;
    refusals::of_workspace(rows, sets)?;
    let outline = Outline::of(book);
    let (left, right) = numbering::number_both(book, &outline, rows, sets)?;
    Ok((outline, left, right))
}

/// Check, tape, workspace, scratch, build, backward pass.
fn make_ready(
    book: &[u8],
    tape: &[u8],
    rows: &mut [u8],
    sets: &mut [u64],
    scratch: &mut [u8],
) -> Result<Outline, Refusal> {
    refusals::of_book(book)?;
    refusals::of_tape(tape)?;
    refusals::of_workspace(rows, sets)?;
    refusals::of_scratch(tape, scratch)?;
    let outline = Outline::of(book);
    numbering::number_both(book, &outline, rows, sets)?;
    backward(tape, rows, scratch);
    Ok(outline)
}

fn backward(tape: &[u8], rows: &[u8], scratch: &mut [u8]) {
    let right_rows = &rows[PAIRS..ROW_BYTES];
    scratch[tape.len()] = 0;
    let mut number = 0;
    for (symbol, place) in tape.iter().zip(&mut scratch[..tape.len()]).rev() {
        number = right_rows[SYMBOLS * number as usize + *symbol as usize];
        *place = number;
    }
}
