//! Where the plain reading is worked out, and where the fast one stands in for it.
//!
//! Up to a size everything is worked out plainly, and the answer is the plain one. The fast reading is worked out too
//! and must agree, or the program stops. Beyond that size the fast reading stands alone, after the plain one has found
//! that a side has more sets than it goes through.

use std::cell::Cell;
use std::fmt::Debug;

use crate::book::Book;
use crate::fast;
use crate::numbering::{self, Side, MOST_SETS};
use crate::reading::{Reading, Wrong};
use crate::sets::{right_set, Set};
use crate::stretches::Stretches;

/// The longest tape that is read plainly.
pub const PLAIN_TAPE: usize = 120;
/// The most sets of a side that are numbered plainly.
pub const PLAIN_SETS: usize = 64;

/// How one call is worked out.
pub struct Agreement {
    pub reading: Reading,
    plain: Cell<bool>,
}

/// The numbered sets of a book's side, unless there are more than this many.
type Numbers = fn(&Book, usize, Reading) -> Option<Side>;

impl Agreement {
    pub fn of(reading: Reading) -> Agreement {
        Agreement { reading, plain: Cell::new(true) }
    }

    /// Whether all that was asked for so far was worked out plainly.
    pub fn is_plain(&self) -> bool {
        self.plain.get()
    }

    /// The numbered left sets; nothing if there are too many.
    pub fn left(&self, book: &Book) -> Option<Side> {
        self.side(book, numbering::left, fast::sets::left)
    }

    /// The numbered right sets; nothing if there are too many.
    pub fn right(&self, book: &Book) -> Option<Side> {
        self.side(book, numbering::right, fast::sets::right)
    }

    fn side(&self, book: &Book, plainly: Numbers, fast: Numbers) -> Option<Side> {
        let most = self.reading.value(MOST_SETS, Wrong::LimitOf255, MOST_SETS - 1);
        if let Some(plain) = plainly(book, PLAIN_SETS, self.reading) {
            return Some(self.agreed(plain, || fast(book, PLAIN_SETS, self.reading).expect("few sets")));
        }
        self.plain.set(false);
        self.agreed((), || assert!(fast(book, PLAIN_SETS, self.reading).is_none(), "the fast reading has few sets"));
        fast(book, most, self.reading)
    }

    /// The right set at each position of a tape.
    pub fn right_sets(&self, book: &Book, tape: &[u8]) -> Vec<Set> {
        let plainly = || (0..=tape.len()).map(|i| right_set(book, tape, i, self.reading)).collect();
        self.either(tape, plainly, || fast::sets::right_sets(book, tape))
    }

    /// The candidates of a tape and those taken.
    pub fn stretches(&self, book: &Book, tape: &[u8]) -> Stretches {
        self.either(tape, || Stretches::plainly(book, tape, self.reading), || Stretches::fast(book, tape))
    }

    /// The plain reading of a tape that is short enough, otherwise the fast one.
    fn either<T: PartialEq + Debug>(&self, tape: &[u8], plainly: impl Fn() -> T, fast: impl Fn() -> T) -> T {
        if tape.len() <= PLAIN_TAPE {
            return self.agreed(plainly(), fast);
        }
        self.plain.set(false);
        fast()
    }

    /// What was found plainly, once the fast reading agrees. It knows no wrong reading and is then not asked.
    fn agreed<T: PartialEq + Debug>(&self, plain: T, fast: impl Fn() -> T) -> T {
        if self.reading.is_true() {
            assert_eq!(plain, fast(), "the fast reading differs from the plain one");
        }
        plain
    }
}
