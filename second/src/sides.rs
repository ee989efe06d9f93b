//! The two sides of a book, for all that one call asks of them.

use std::cell::OnceCell;

use crate::agreement::Agreement;
use crate::book::Book;
use crate::numbering::Side;
use crate::reading::Reading;
use crate::wrong_symbol::with_book;

/// The two sides of a book, worked out only if they are asked for.
pub struct Sides<'a> {
    pub book: &'a Book,
    pub agreement: &'a Agreement,
    /// How the call is read once its book is known.
    pub reading: Reading,
    left: OnceCell<Option<Side>>,
    right: OnceCell<Option<Side>>,
}

impl<'a> Sides<'a> {
    pub fn of(book: &'a Book, agreement: &'a Agreement) -> Sides<'a> {
        let reading = with_book(book, agreement.reading);
        Sides { book, agreement, reading, left: OnceCell::new(), right: OnceCell::new() }
    }

    pub fn left(&self) -> Option<&Side> {
        self.left.get_or_init(|| self.agreement.left(self.book)).as_ref()
    }

    pub fn right(&self) -> Option<&Side> {
        self.right.get_or_init(|| self.agreement.right(self.book)).as_ref()
    }

    /// Both sides, after replies 13 and 14 were shut out.
    pub fn both(&self) -> (&Side, &Side) {
        (self.left().expect("at most 256 left sets"), self.right().expect("at most 256 right sets"))
    }
}
