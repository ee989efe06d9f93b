//! One case of the law: a book, a marker, two tapes, and what is lent for the calls on the joined tape and on each alone.

use std::io;

use crate::book::{Arc, Book, SYMBOLS};
use crate::call::{Call, Lengths, Operation, Request};
use crate::digits;
use crate::generate::buffers;
use crate::operations::answer;
use crate::reading::Reading;
use crate::workspace;

/// The calls of a case: REWRITE and ACCOUNT of the joined tape, of the first and of the second.
pub const CALLS: usize = 6;

#[derive(Clone, PartialEq, Eq, Debug)]
pub struct Case {
    pub book: Vec<u8>,
    /// The symbol between the two tapes.
    pub marker: u8,
    pub first: Vec<u8>,
    pub second: Vec<u8>,
    /// The byte that stands everywhere in the lent buffers before each call.
    pub fill: u8,
    /// What is lent for the joined tape, for the first and for the second.
    pub lengths: [Lengths; 3],
}

/// Whether a symbol is on an arc.
pub type OnArc = fn(&Arc, u8) -> bool;

/// "An arc is open to each symbol from lowest to highest"
pub fn on_arc(arc: &Arc, symbol: u8) -> bool {
    arc.open(symbol, Reading::TRUE)
}

/// The valid symbols that are "on no arc of the book".
pub fn on_no_arc(book: &Book, on_arc: OnArc) -> Vec<u8> {
    let is_unused = |symbol: &u8| !book.arcs.iter().any(|arc| on_arc(arc, *symbol));
    (0..SYMBOLS as u8).filter(is_unused).collect()
}

impl Case {
    /// "one tape, that symbol and a second tape"
    pub fn joined(&self) -> Vec<u8> {
        [&self.first[..], &[self.marker], &self.second].concat()
    }

    /// How far the second tape is moved on: "by the first tape's length and one".
    pub fn moved(&self) -> u16 {
        self.first.len() as u16 + 1
    }

    pub fn calls(&self) -> Vec<Call> {
        let tapes = [self.joined(), self.first.clone(), self.second.clone()];
        let both = |(tape, lengths): (Vec<u8>, Lengths)| {
            let call = |operation| Call { lengths, ..self.call(operation, &tape) };
            [Operation::Rewrite, Operation::Account].map(|operation| call(operation).lent_alone().within_limits())
        };
        tapes.into_iter().zip(self.lengths).flat_map(both).collect()
    }

    fn call(&self, operation: Operation, tape: &[u8]) -> Call {
        Call { fill: self.fill, book: self.book.clone(), tape: tape.to_vec(), ..Call::new(operation) }
    }

    /// The case of which these are the requests, one after another.
    pub fn read(mut requests: &[u8]) -> io::Result<Case> {
        let mut calls = Vec::new();
        while let Request::Call(call) = Call::read(&mut requests)? {
            calls.push(*call);
        }
        let case = Case::of_calls(&calls).filter(|case| case.calls() == calls);
        case.ok_or_else(|| io::Error::other("these bytes are not the requests of a case"))
    }

    fn of_calls(calls: &[Call]) -> Option<Case> {
        let [joined, joined_account, first, first_account, second, second_account] = calls else { return None };
        let lent = |rewrite: &Call, account: &Call| Lengths { lines: account.lengths.lines, ..rewrite.lengths };
        Some(Case {
            book: joined.book.clone(),
            marker: *joined.tape.get(first.tape.len())?,
            first: first.tape.clone(),
            second: second.tape.clone(),
            fill: joined.fill,
            lengths: [lent(joined, joined_account), lent(first, first_account), lent(second, second_account)],
        })
    }

    /// Lends what the joined tape needs and so much more of each buffer; to each tape alone the same if they are lent
    /// alike, else just what it needs.
    pub fn lent(mut self, more: usize, alike: [bool; 2]) -> Case {
        let Lengths { rows, sets, scratch, out, origins, lines } = self.needed(&self.joined());
        let [rows, sets, scratch, out, origins, lines] =
            [rows, sets, scratch, out, origins, lines].map(|length| length + more);
        let joined = Lengths { rows, sets, scratch, out, origins, lines };
        let alone = |alike: bool, tape: &[u8]| if alike { joined } else { self.needed(tape) };
        self.lengths = [joined, alone(alike[0], &self.first), alone(alike[1], &self.second)];
        self
    }

    /// Lends just what is needed, as alike as it was before.
    pub fn lent_again(self) -> Case {
        let [joined, first, second] = self.lengths;
        self.lent(0, [first == joined, second == joined])
    }

    /// What is just enough for a tape.
    fn needed(&self, tape: &[u8]) -> Lengths {
        let needed = |operation| buffers::needed(&self.call(operation, tape));
        let (symbols, words) = (needed(Operation::Rewrite), needed(Operation::Account));
        let (rows, sets, scratch) = (workspace::ROW_BYTES, workspace::SETS, tape.len() + 1);
        Lengths { rows, sets, scratch, out: symbols, origins: symbols, lines: words }
    }

    /// "Premise: the call on the joined tape is accepted."
    pub fn is_accepted(&self) -> bool {
        self.calls()[..2].iter().all(|call| answer(call, Reading::TRUE).reply == 0)
    }

    pub fn in_words(&self) -> String {
        let [_, first, second] = &self.lengths;
        let (marker, tapes) =
            (digits::shown(&[self.marker]), [&self.first, &self.second].map(|tape| digits::shown(tape)));
        let joined = Call { lengths: self.lengths[0], ..self.call(Operation::Rewrite, &self.joined()) };
        format!(
            "ACCOUNT and {}  marker {marker} at {}\n  first tape: {}, {first:?}\n  second tape: {}, {second:?}\n",
            joined.in_words(),
            self.first.len(),
            tapes[0],
            tapes[1],
        )
    }
}
