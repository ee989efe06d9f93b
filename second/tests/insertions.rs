//! What document 02, No. 5, speaks of is met by the fixed-seed run in every way and often, and often a book has nothing
//! of it.

use second::book::{self, Book};
use second::call::{Call, Operation};
use second::candidates::Stretch;
use second::generate::buffers::{most_inserted, most_replaced, needed};
use second::generate::calls::call;
use second::operations::answer;
use second::reading::Reading;
use second::record::FOCUS;
use second::stretches::Stretches;

const SEED: u64 = 1;
const CALLS: u64 = 6000;
/// Longer tapes are few and take long.
const LONGEST: usize = 300;

/// A call that comes to the stretches of its tape.
struct Met {
    call: Call,
    book: Book,
    stretches: Stretches,
}

impl Met {
    /// Nothing for a call that is refused before, but for 13 and 14, or whose tape is longer.
    fn of(call: Call) -> Option<Met> {
        let n = call.tape.len();
        let (rows, sets, scratch) = (call.lengths.rows, call.lengths.sets, call.lengths.scratch);
        if n > LONGEST || call.tape.iter().any(|symbol| *symbol > 31) || rows < 16_384 || sets < 512 || scratch <= n {
            return None;
        }
        let book = book::read(&call.book, Reading::TRUE).ok()?;
        let stretches = Stretches::fast(&book, &call.tape);
        Some(Met { call, book, stretches })
    }

    fn has_empty_focus(&self) -> bool {
        self.book.states.iter().any(|state| state.part == FOCUS && state.start && state.accept)
    }

    fn inserted(&self) -> impl Iterator<Item = &Stretch> {
        self.stretches.taken.iter().filter(|taken| taken.is_empty())
    }

    fn inserts_at(&self, wanted: impl Fn(usize) -> bool) -> bool {
        self.inserted().any(|taken| wanted(taken.start))
    }

    fn inserts_word_of(&self, length: usize) -> bool {
        self.inserted().any(|taken| self.book.words[taken.rule].len() == length)
    }

    /// Whether an empty candidate stands so beside a longer stretch that is taken.
    fn has_empty_beside(&self, wanted: impl Fn(usize, &Stretch) -> bool) -> bool {
        let longer = |at: usize| self.stretches.taken.iter().any(|taken| !taken.is_empty() && wanted(at, taken));
        self.stretches.listed.iter().any(|candidate| candidate.is_empty() && longer(candidate.start))
    }

    /// Whether two rules have the same empty stretch, and it is taken.
    fn has_tie(&self) -> bool {
        let tie =
            |at: usize| self.stretches.listed.iter().filter(|other| (other.start, other.end) == (at, at)).count() > 1;
        self.inserts_at(tie)
    }

    /// The room for an output with its origins.
    fn room(&self) -> usize {
        self.call.lengths.out.min(self.call.lengths.origins)
    }
}

/// The calls of one operation in the run that come to stretches.
fn met(operation: Operation) -> Vec<Met> {
    let calls = (0..CALLS).map(|number| call(SEED, number)).filter(|call| call.operation == operation);
    calls.filter_map(Met::of).collect()
}

/// At least so many of them are as wanted.
fn at_least(least: usize, what: &str, of: &[Met], wanted: impl Fn(&Met) -> bool) {
    let count = of.iter().filter(|met| wanted(met)).count();
    println!("{count} of {}: {what}", of.len());
    assert!(count >= least, "{count} of {}: {what}", of.len());
}

#[test]
fn in_every_way() {
    for operation in [Operation::Rewrite, Operation::Account] {
        let met = met(operation);
        let in_ten = |tenths: usize| tenths * met.len() / 10;
        at_least(in_ten(4), "no focus accepts the empty word", &met, |met| !met.has_empty_focus());
        at_least(in_ten(4), "a focus accepts the empty word", &met, Met::has_empty_focus);
        at_least(in_ten(1), "inserted at the front", &met, |met| met.inserts_at(|at| at == 0));
        let inside = |met: &Met| met.inserts_at(|at| 0 < at && at < met.call.tape.len());
        at_least(in_ten(2), "inserted inside the tape", &met, inside);
        at_least(in_ten(2), "inserted at the end", &met, |met| met.inserts_at(|at| at == met.call.tape.len()));
        at_least(3, "inserted into the empty tape", &met, |met| met.call.tape.is_empty() && met.inserts_at(|_| true));
        let at_end = |met: &Met| met.has_empty_beside(|at, taken| at == taken.end);
        at_least(in_ten(1), "an empty candidate at the end of a taken stretch", &met, at_end);
        let within = |met: &Met| met.has_empty_beside(|at, taken| taken.start < at && at < taken.end);
        at_least(in_ten(1), "an empty candidate inside a taken stretch", &met, within);
        let beaten = |met: &Met| met.has_empty_beside(|at, taken| at == taken.start);
        at_least(in_ten(1), "an empty candidate at the start of a taken stretch", &met, beaten);
        at_least(in_ten(1), "an empty candidate of two rules", &met, Met::has_tie);
        for length in 0..=8 {
            at_least(3, &format!("a word of {length} inserted"), &met, |met| met.inserts_word_of(length));
        }
    }
}

#[test]
fn with_every_room() {
    let met = met(Operation::Rewrite);
    let at_end = |met: &Met| met.inserts_at(|at| at == met.call.tape.len());
    at_least(40, "just enough, with an insertion at the end", &met, |met| {
        at_end(met) && met.room() == needed(&met.call)
    });
    at_least(10, "one short, with an insertion at the end", &met, |met| {
        at_end(met) && met.room() + 1 == needed(&met.call)
    });
    for (name, most) in [("8n", most_replaced as fn(usize) -> usize), ("9n + 8", most_inserted)] {
        for (beside, less) in [("one less", 1), ("just", 0)] {
            let is = |met: &Met| met.room() + less == most(met.call.tape.len()) && !met.call.tape.is_empty();
            at_least(5, &format!("{beside} {name}, with empty foci"), &met, |met| is(met) && met.has_empty_focus());
            at_least(5, &format!("{beside} {name}, without"), &met, |met| is(met) && !met.has_empty_focus());
        }
    }
}

/// An empty part past the front, at the tape's end among others; and a start above its end in a line that SHOW reads.
#[test]
fn by_show() {
    let (mut inside, mut at_end, mut above) = (0, 0, 0);
    for call in (0..CALLS).map(|number| call(SEED, number)).filter(|call| call.operation == Operation::Show) {
        let shown = answer(&call, Reading::TRUE);
        let is_empty_at = |place: u64| shown.place == place && shown.counts[0] == 0;
        at_end += u64::from(!call.tape.is_empty() && is_empty_at(call.tape.len() as u64));
        inside += u64::from((1..call.tape.len() as u64).any(is_empty_at));
        let line = call.account.get(6 * call.line as usize..6 * call.line as usize + 6);
        above += u64::from(line.is_some_and(|line| line[1] > line[2]));
    }
    assert!(inside > 10 && at_end > 5 && above > 10, "{inside} {at_end} {above}");
}
