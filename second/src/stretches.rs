//! The stretches of one tape: its candidates, and those of them that are taken.

use crate::book::Book;
use crate::candidates::{Candidates, Stretch};
use crate::fast;
use crate::reading::Reading;
use crate::taken::taken;

/// Up to so many candidates are listed; more are counted alone. No account that can be asked for has as many lines.
pub const MOST_LISTED: usize = 100_000;

#[derive(PartialEq, Eq, Debug)]
pub struct Stretches {
    /// The number of candidates.
    pub count: usize,
    /// All candidates, start by start and there rule by rule; none if there are more than `MOST_LISTED`.
    pub listed: Vec<Stretch>,
    /// The taken stretches, front to back.
    pub taken: Vec<Stretch>,
}

impl Stretches {
    /// By the sentences of document 01; for tapes short enough that all candidates can be listed.
    pub fn plainly(book: &Book, tape: &[u8], reading: Reading) -> Stretches {
        let candidates = Candidates { book, tape, reading };
        let listed = candidates.all();
        Stretches { count: listed.len(), taken: taken(&candidates, &listed), listed }
    }

    /// By the fast stand-in.
    pub fn fast(book: &Book, tape: &[u8]) -> Stretches {
        let arcs = fast::arcs::Arcs::of(book);
        let candidates = fast::candidates::Candidates::of(book, &arcs, tape);
        let count = candidates.count();
        let listed = if count <= MOST_LISTED { candidates.all() } else { Vec::new() };
        Stretches { count, listed, taken: candidates.taken() }
    }
}
