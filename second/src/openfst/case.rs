//! One text that OpenFst printed: what IMPORT must reply, and what the accounts of books with its part must list.

use std::collections::BTreeSet;
use std::io;

use super::drawing::{intersected, Drawing, Printed};
use super::words::{accepted, listed, stretches, Words};
use crate::account::WORDS_A_LINE;
use crate::answer::Answer;
use crate::book::{MOST_ARCS, MOST_STATES};
use crate::call::{Call, Lengths, Operation};
use crate::chance::Chance;
use crate::record::{self, BOTH, FOCUS, LEFT, NEITHER, RIGHT};
use crate::workspace;

/// Room for every stretch of the longest tape, and for every record that may be written.
const MOST_LINES: usize = 600;
const MOST_BYTES: usize = 3 * MOST_STATES + 5 * MOST_ARCS;

/// A text with the tapes and the words that are tried.
pub struct Case {
    pub drawing: Drawing,
    pub text: String,
    /// How many states and arcs the text has.
    states: usize,
    arcs: usize,
    pub tapes: Vec<Vec<u8>>,
    /// The stretches of the tapes, and those of them that OpenFst accepts; none of a text that IMPORT must refuse.
    pub tried: Words,
    pub accepted: Words,
    /// The left, the focus and the right part, each in a book of its own.
    pub places: [Place; 3],
}

/// Where the text's part stands in a book.
#[derive(Clone, Copy)]
pub struct Place {
    pub part: u8,
    /// Whether the two other parts, one state each, stand before it or after it.
    before: [bool; 2],
    /// How many states of an idle rule stand before all these.
    idle: usize,
}

impl Case {
    pub fn of(chance: &mut Chance) -> io::Result<Case> {
        let drawing = Drawing::of(chance);
        let Printed { compiled, text } = drawing.printed()?;
        let fields: Vec<Vec<&str>> = text.lines().map(|line| line.split('\t').collect()).collect();
        let named = fields.iter().flat_map(|fields| &fields[..if fields.len() > 2 { 2 } else { 1 }]);
        let states = named.collect::<BTreeSet<_>>().len().max(1);
        let arcs = fields.iter().filter(|fields| fields.len() > 2).count();
        let tapes = drawing.tapes(chance);
        let places = [LEFT, FOCUS, RIGHT].map(|part| Place::of(part, states, chance));
        let (tried, accepted) = (Words::new(), Words::new());
        let mut case = Case { drawing, text, states, arcs, tapes, tried, accepted, places };
        // A book has room for the other two parts too.
        let fits = states + 2 <= MOST_STATES;
        if fits && case.places.iter().all(|place| case.expected(place).0 == 0) {
            case.tried = stretches(&case.tapes);
            case.accepted = self::accepted(&intersected(listed(&case.tried), &compiled)?);
        }
        Ok(case)
    }

    /// Reply and place: by the first line with two or four fields or with label 0, then by the counts. OpenFst prints
    /// nothing else that is refused.
    pub fn expected(&self, place: &Place) -> (u8, u64) {
        let mut offset = 0;
        for line in self.text.split_inclusive('\n') {
            let fields: Vec<&str> = line.trim_end().split('\t').collect();
            match fields[..] {
                [_, _] | [_, _, _, _] => return (20, offset),
                [_, _, "0"] => return (19, offset),
                _ => offset += line.len() as u64,
            }
        }
        match self.arcs > MOST_ARCS || place.first() + self.states > MOST_STATES {
            false => (0, 0),
            true => (21, 0),
        }
    }

    pub fn import(&self, place: &Place) -> Call {
        let mut call = Call::new(Operation::Import);
        call.fill = 0xa5;
        call.book = self.text.clone().into_bytes();
        call.line = u32::from_le_bytes([place.part, place.first() as u8, 0, 0]);
        call.lengths.out = MOST_BYTES;
        call
    }

    /// The accounts of all tapes for a book with what IMPORT wrote; none of a text that it must refuse.
    pub fn accounts(&self, place: &Place, imported: &Answer) -> Vec<Call> {
        if self.tried.is_empty() {
            return Vec::new();
        }
        let records = &imported.lent.out[..(imported.counts[0] as usize).min(MOST_BYTES)];
        let mut call = Call::new(Operation::Account);
        call.book = place.book(records);
        let account = |tape: &Vec<u8>| {
            let (rows, sets, scratch) = (workspace::ROW_BYTES, workspace::SETS, tape.len() + 1);
            let lengths = Lengths { rows, sets, scratch, lines: WORDS_A_LINE * MOST_LINES, ..Lengths::default() };
            Call { tape: tape.clone(), lengths, ..call.clone() }
        };
        self.tapes.iter().map(account).collect()
    }

    /// Start and end of every line that the account of a tape must have, and at how many places it could have one: for
    /// the focus the stretches that are accepted, for a left or right part the empty ones where an accepted word ends or
    /// begins.
    pub fn lines(&self, place: &Place, tape: &[u8]) -> (Vec<(usize, usize)>, usize) {
        let n = tape.len();
        let is_word = |i: usize, j: usize| self.accepted.contains(&tape[i..j]);
        let stretches = (0..=n).flat_map(|i| (i..=n).map(move |j| (i, j)));
        let stretches: Vec<_> = stretches.filter(|(i, j)| place.part == FOCUS || i == j).collect();
        let holds = |&&(i, j): &&(usize, usize)| match place.part {
            FOCUS => is_word(i, j),
            LEFT => (0..=i).any(|begin| is_word(begin, i)),
            _ => (j..=n).any(|end| is_word(j, end)),
        };
        (stretches.iter().filter(holds).copied().collect(), stretches.len())
    }
}

impl Place {
    /// Any first number that the book has room for, if the text has.
    fn of(part: u8, states: usize, chance: &mut Chance) -> Place {
        let before = [chance.one_in(2), chance.one_in(2)];
        let left = MOST_STATES.saturating_sub(states + 2);
        let some = chance.below(left + 1);
        let idle = chance.weighted(&[(2, 0), (1, left), (1, some)]);
        Place { part, before, idle }
    }

    pub fn first(&self) -> usize {
        self.idle + self.before.iter().filter(|before| **before).count()
    }

    /// The number of the rule that has the part.
    pub fn rule(&self) -> u16 {
        u16::from(self.idle > 0)
    }

    /// The other parts are "one state with flags 3".
    fn book(&self, records: &[u8]) -> Vec<u8> {
        let mut others = [LEFT, FOCUS, RIGHT].to_vec();
        others.retain(|part| *part != self.part);
        let (before, after): (Vec<_>, Vec<_>) = others.into_iter().zip(self.before).partition(|(_, before)| *before);
        let states = |parts: Vec<(u8, bool)>| parts.into_iter().flat_map(|(part, _)| record::state(part, BOTH));
        let mut book = Vec::new();
        if self.idle > 0 {
            book.extend(record::rule(&[]));
            (0..self.idle).for_each(|_| book.extend(record::state(LEFT, NEITHER)));
        }
        book.extend(record::rule(&[1]));
        book.extend(states(before));
        book.extend(records);
        book.extend(states(after));
        book.extend(record::end());
        book
    }
}
