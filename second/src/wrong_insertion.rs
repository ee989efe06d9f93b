//! Wrong readings of empty candidates and inserted words: document 02, No. 5. Without one, each of these leaves what
//! `candidates`, `taken`, `output`, `rewrite`, `account` and `show` say. Those of an inserted word's origins are in
//! `wrong_mark`, those of a focus state's flags in `book`, and those of lanes in `wrong_lane`.

use std::ops::Range;

use crate::book::Book;
use crate::candidates::{Candidates, Stretch};
use crate::output::Output;
use crate::reading::{Reading, Wrong};
use crate::record::{FOCUS, LEFT, RIGHT};
use crate::stretches::Stretches;
use crate::taken::longest;

impl Candidates<'_> {
    /// The candidates at a start, with other empty ones than truly.
    pub fn with_empty_ones_read(&self, start: usize, mut here: Vec<Stretch>) -> Vec<Stretch> {
        if self.reading.is_true() {
            return here;
        }
        here.retain(|stretch| !stretch.is_empty() || !self.is_left_out(*stretch));
        let empty = self.rules().map(|rule| Stretch { rule, start, end: start });
        let put_in: Vec<Stretch> = empty.filter(|empty| !here.contains(empty) && self.is_put_in(*empty)).collect();
        here.extend(put_in);
        here
    }

    /// Whether a candidate, an empty one, is none.
    fn is_left_out(&self, empty: Stretch) -> bool {
        let (tape, at, is) = (self.tape, empty.start, |wrong: Wrong| self.reading.is(wrong));
        let language = |part: u8| self.language(empty.rule, part);
        is(Wrong::NoEmptyCandidate)
            || is(Wrong::EmptyTapeBare) && tape.is_empty()
            || is(Wrong::EmptyWithoutWord) && self.book.words[empty.rule].is_empty()
            || is(Wrong::EmptyWithoutArcs) && self.has_arcs(empty.rule)
            || is(Wrong::EmptyNeedsLeft) && !(0..at).any(|begin| language(LEFT).holds(&tape[begin..at]))
            || is(Wrong::EmptyNeedsRight) && !(at + 1..=tape.len()).any(|end| language(RIGHT).holds(&tape[at..end]))
    }

    fn has_arcs(&self, rule: usize) -> bool {
        let of_focus = |state: usize| (self.book.states[state].rule, self.book.states[state].part) == (rule, FOCUS);
        self.book.arcs.iter().any(|arc| of_focus(arc.from))
    }

    /// Whether an empty stretch that is no candidate is one.
    fn is_put_in(&self, empty: Stretch) -> bool {
        let Stretch { rule, start, .. } = empty;
        let focus = self.language(rule, FOCUS);
        let (left, right) = (|| self.left_holds(rule, start), || self.right_holds(rule, start));
        self.reading.is(Wrong::EmptyByLeftAlone) && focus.holds(&[]) && left()
            || self.reading.is(Wrong::EmptyByRightAlone) && focus.holds(&[]) && right()
            || self.reading.is(Wrong::BareFocusInserts) && focus.is_bare() && left() && right()
    }
}

/// Whether a candidate after the stretch just taken is passed over.
pub fn wrongly_hidden(candidate: Stretch, just_taken: Stretch, reading: Reading) -> bool {
    let at_end = candidate.is_empty() && !just_taken.is_empty() && candidate.start == just_taken.end;
    let after_kept = just_taken.is_empty() && candidate.start == just_taken.start + 1;
    reading.is(Wrong::EmptyAtEndNotTaken) && at_end || reading.is(Wrong::NoneAfterInsertion) && after_kept
}

/// Another choice than the longest among the candidates of a taken start.
pub fn wrong_choice(here: &[Stretch], reading: Reading) -> Option<Stretch> {
    let empty = || here.iter().copied().filter(Stretch::is_empty);
    if reading.is(Wrong::EmptyBeatsLonger) {
        return empty().min_by_key(|empty| empty.rule);
    }
    if reading.is(Wrong::HighestEmptyWins) && here.iter().all(Stretch::is_empty) {
        return empty().max_by_key(|empty| empty.rule);
    }
    None
}

/// The stretches taken from all candidates, with other empty ones than truly.
pub fn with_others_taken(mut taken: Vec<Stretch>, all: &[Stretch], reading: Reading) -> Vec<Stretch> {
    if reading.is(Wrong::InsertedAlone) && !taken.iter().all(Stretch::is_empty) {
        taken.retain(|taken| !taken.is_empty());
    }
    if reading.is(Wrong::EmptyTakenInside) {
        let inside = |start: &usize| taken.iter().any(|taken| taken.start < *start && *start < taken.end);
        let mut starts: Vec<usize> = all.iter().map(|candidate| candidate.start).filter(inside).collect();
        starts.dedup();
        taken.extend(starts.into_iter().filter_map(|start| lowest_empty(all, start)));
        taken.sort_by_key(|taken| taken.start);
    }
    taken
}

/// The empty candidate at a start that would be taken if nothing longer were.
fn lowest_empty(all: &[Stretch], start: usize) -> Option<Stretch> {
    let empty: Vec<Stretch> = all.iter().copied().filter(|empty| empty.is_empty() && empty.start == start).collect();
    longest(&empty)
}

impl Stretches {
    /// The stretches that REWRITE takes on a tape of n symbols.
    pub fn rewritten(&self, n: usize, reading: Reading) -> Vec<Stretch> {
        let instead = |taken: &Stretch| match taken.is_empty() {
            true => self.instead_of_empty(*taken, n, reading),
            false => self.instead_of_longer(*taken, reading),
        };
        self.taken.iter().flat_map(instead).collect()
    }

    fn instead_of_empty(&self, taken: Stretch, n: usize, reading: Reading) -> Vec<Stretch> {
        let is = |wrong: Wrong| reading.is(wrong);
        let (at_front, at_end) = (taken.start == 0, taken.start == n);
        if is(Wrong::EveryRuleInserts) {
            return self.listed.iter().copied().filter(|other| other.start == taken.start).collect();
        }
        let unvisited = is(Wrong::FrontNotRewritten) && at_front || is(Wrong::EndNotRewritten) && at_end;
        let times = if is(Wrong::NothingInserted) || unvisited { 0 } else { 1 };
        vec![taken; reading.value(times, Wrong::InsertedTwice, 2)]
    }

    fn instead_of_longer(&self, taken: Stretch, reading: Reading) -> Vec<Stretch> {
        let beside = match reading.is(Wrong::EmptyBesideLonger) {
            false => None,
            true => lowest_empty(&self.listed, taken.start),
        };
        beside.into_iter().chain([taken]).collect()
    }

    /// The stretches that ACCOUNT counts and lists for a tape of n symbols.
    pub fn accounted(mut self, n: usize, reading: Reading) -> Stretches {
        let is = |wrong: Wrong| reading.is(wrong);
        let inside = |at: usize| self.taken.iter().any(|taken| taken.start < at && at < taken.end);
        let at_end = |candidate: &Stretch| candidate.start == n;
        let left_out = |candidate: &Stretch| {
            is(Wrong::EndNotAccounted) && at_end(candidate)
                || is(Wrong::EmptyUnlisted) && candidate.is_empty()
                || is(Wrong::EmptyInsideUnlisted) && candidate.is_empty() && inside(candidate.start)
        };
        let count = |wanted: &dyn Fn(&Stretch) -> bool| self.listed.iter().filter(|one| wanted(one)).count();
        self.count -= count(&|candidate| left_out(candidate) || is(Wrong::EndUncounted) && at_end(candidate));
        let unlisted = |candidate: &Stretch| left_out(candidate) || is(Wrong::EndUnlisted) && at_end(candidate);
        self.listed = self.listed.iter().copied().filter(|candidate| !unlisted(candidate)).collect();
        self
    }
}

/// Up to where and from where the tape is kept around an inserted word.
pub fn kept_around(taken: Stretch, tape: &[u8], reading: Reading) -> Option<(usize, usize)> {
    let after = (taken.start + 1).min(tape.len());
    match taken.is_empty() {
        true if reading.is(Wrong::SymbolDropped) => Some((taken.start, after)),
        true if reading.is(Wrong::SymbolBeforeWord) => Some((after, after)),
        _ => None,
    }
}

/// A symbol kept at an insertion, the last one with its origin, has the next position instead.
pub fn with_kept_late(mut output: Output, tape: &[u8], taken: &[Stretch], reading: Reading) -> Output {
    let at_symbol = |taken: &&Stretch| taken.is_empty() && taken.start < tape.len();
    for inserted in taken.iter().filter(|_| reading.is(Wrong::KeptLate)).filter(at_symbol) {
        let kept = output.origins.iter().rposition(|origin| usize::from(*origin) == inserted.start);
        output.origins[kept.expect("a kept symbol")] += 1;
    }
    output
}

/// The symbols for which REWRITE wants room, given those that it needs.
pub fn measured(needed: usize, book: &Book, taken: &[Stretch], n: usize, reading: Reading) -> usize {
    let inserted = || taken.iter().filter(|taken| taken.is_empty());
    let words = |at: &dyn Fn(usize) -> bool| -> usize {
        inserted().filter(|taken| at(taken.start)).map(|taken| book.words[taken.rule].len()).sum()
    };
    let unmeasured = [
        (Wrong::InsertedUnmeasured, words(&|_| true)),
        (Wrong::EndUnmeasured, words(&|at| at == n)),
        (Wrong::SymbolUnmeasured, inserted().filter(|taken| taken.start < n).count()),
    ];
    let symbols = unmeasured.iter().find(|(wrong, _)| reading.is(*wrong));
    needed - symbols.map_or(0, |(_, symbols)| *symbols)
}

/// The taken stretch that decides an empty candidate with verdict 3, which it truly has not.
pub fn wrongly_around(candidate: Stretch, taken: &[Stretch], reading: Reading) -> Option<Stretch> {
    let at = candidate.start;
    let mut longer = taken.iter().copied().filter(|taken| candidate.is_empty() && !taken.is_empty());
    if reading.is(Wrong::EmptyAtEndInside) {
        return longer.find(|taken| taken.end == at);
    }
    if reading.is(Wrong::EmptyShorterInside) {
        return longer.find(|taken| taken.start == at);
    }
    None
}

/// The order of the account's lines.
pub fn wrong_order(candidate: Stretch, reading: Reading) -> Option<[usize; 3]> {
    let Stretch { rule, start, end } = candidate;
    let late = |number: usize| if candidate.is_empty() { usize::MAX } else { number };
    let orders =
        [(Wrong::EmptyLinesLast, [start, late(end), rule]), (Wrong::EmptyLinesApart, [late(start), end, rule])];
    orders.iter().find(|(wrong, _)| reading.is(*wrong)).map(|(_, order)| *order)
}

/// The part of a tape of n symbols that SHOW hands back for an empty stretch, or for a start above its end.
pub fn wrong_part(start: usize, end: usize, n: usize, reading: Reading) -> Option<Range<usize>> {
    let is = |wrong: Wrong| reading.is(wrong);
    if start > end {
        let turned = is(Wrong::StartAboveEndTurned).then_some(end..start);
        let at_start = is(Wrong::StartAboveEndAtStart).then_some(start..start);
        return turned.or(at_start).filter(|part| part.end <= n);
    }
    if start < end {
        return None;
    }
    if is(Wrong::EmptyStretchAtFront) || is(Wrong::EmptyEndAtFront) && start == n {
        return Some(0..0);
    }
    let past = (is(Wrong::EmptyPastTapeAtEnd) && start > n).then_some(n..n);
    past.or((is(Wrong::EmptyShowsSymbol) && start < n).then_some(start..start + 1))
}
