//! What the cases of a run must have met.

use super::case::Case;
use crate::account::Line;
use crate::answer::Answer;
use crate::book::{self, Book};
use crate::reading::Reading;

/// A run of this many cases must meet every condition.
pub const WHOLE_RUN: u64 = 300;

/// A condition in words, and whether a case has it.
type Condition = (&'static str, fn(&Met) -> bool);

const CONDITIONS: [Condition; 8] = [
    ("a stretch taken in both tapes", |met| !met.taken.contains(&0)),
    ("a word put in at the very end of the first tape", |met| met.puts_in(0, met.case.first.len())),
    ("a word put in at the very front of the second tape", |met| met.puts_in(1, 0)),
    ("a candidate in both tapes that is not taken", |met| met.accounts.iter().all(|lines| lines.iter().any(is_lost))),
    ("an empty first tape", |met| met.case.first.is_empty()),
    ("an empty second tape", |met| met.case.second.is_empty()),
    ("the marker inside a tape", |met| met.is_inside_a_tape()),
    ("an arc that ends or begins next to the marker", |met| met.is_next_to_an_arc()),
];

/// A case with what was answered for each of its two tapes alone.
struct Met<'a> {
    case: &'a Case,
    book: Book,
    taken: [u64; 2],
    accounts: [Vec<Line>; 2],
}

fn is_lost([_, _, _, verdict, _, _]: &Line) -> bool {
    *verdict != 0
}

impl Met<'_> {
    /// Nothing of a book that is refused.
    fn of<'a>(case: &'a Case, answers: &[Answer]) -> Option<Met<'a>> {
        let [_, _, first_rewriting, first_account, second_rewriting, second_account] = answers else { return None };
        Some(Met {
            case,
            book: book::read(&case.book, Reading::TRUE).ok()?,
            taken: [first_rewriting, second_rewriting].map(|answer| answer.counts[1]),
            accounts: [first_account, second_account].map(Answer::account),
        })
    }

    /// Whether an empty stretch is taken at this place of a tape, and its rule's word is not empty.
    fn puts_in(&self, tape: usize, place: usize) -> bool {
        let is_there = |[rule, start, end, verdict, _, _]: &Line| {
            let is_taken = [*start as usize, *end as usize] == [place; 2] && *verdict == 0;
            is_taken && !self.book.words[*rule as usize].is_empty()
        };
        self.accounts[tape].iter().any(is_there)
    }

    fn is_inside_a_tape(&self) -> bool {
        [&self.case.first, &self.case.second].iter().any(|tape| tape.contains(&self.case.marker))
    }

    fn is_next_to_an_arc(&self) -> bool {
        let marker = self.case.marker;
        self.book.arcs.iter().any(|arc| arc.highest + 1 == marker || marker + 1 == arc.lowest)
    }
}

/// How many cases had each condition.
#[derive(Default)]
pub struct Tally {
    counts: [u64; CONDITIONS.len()],
}

impl Tally {
    pub fn add(&mut self, case: &Case, answers: &[Answer]) {
        let Some(met) = Met::of(case, answers) else { return };
        self.counts.iter_mut().zip(CONDITIONS).for_each(|(count, (_, holds))| *count += u64::from(holds(&met)));
    }

    /// The conditions that no case had, in words.
    pub fn never_met(&self) -> Vec<&'static str> {
        let unmet = self.counts.iter().zip(CONDITIONS).filter(|(count, _)| **count == 0);
        unmet.map(|(_, (words, _))| words).collect()
    }

    /// A line for each condition.
    pub fn table(&self) -> String {
        let line = |(count, (words, _)): (&u64, Condition)| format!("{count:>6} with {words}\n");
        self.counts.iter().zip(CONDITIONS).map(line).collect()
    }
}
