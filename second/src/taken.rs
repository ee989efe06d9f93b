//! Taken stretches: document 01, "Taken starts", and document 02, No. 5.

use std::cmp::Reverse;

use crate::candidates::{Candidates, Stretch};
use crate::reading::{Reading, Wrong};
use crate::record::LEFT;
use crate::wrong_insertion::{with_others_taken, wrong_choice, wrongly_hidden};

/// The stretches taken, given all candidates.
pub fn taken(candidates: &Candidates, all: &[Stretch]) -> Vec<Stretch> {
    if candidates.reading.is(Wrong::ContextInOutput) {
        return taken_with_context_in_output(candidates);
    }
    let mut taken: Vec<Stretch> = Vec::new();
    while let Some(start) = smallest_start(all, taken.last(), candidates.reading) {
        taken.push(at_start(candidates, all, start));
    }
    with_others_taken(taken, all, candidates.reading)
}

/// "the smallest candidate start; then, again and again, the smallest candidate start that is at or after the end
/// of the stretch just taken"
fn smallest_start(all: &[Stretch], just_taken: Option<&Stretch>, reading: Reading) -> Option<usize> {
    let is_after = |stretch: &&Stretch| just_taken.is_none_or(|last| follows(**stretch, *last, reading));
    all.iter().filter(is_after).map(|stretch| stretch.start).min()
}

/// "at or after the end". Document 02, No. 5: "An empty candidate at the end of a taken stretch is after it, and no
/// start is taken twice."
fn follows(candidate: Stretch, just_taken: Stretch, reading: Reading) -> bool {
    let from = reading.value(just_taken.end, Wrong::StartInside, just_taken.start + 1);
    let from = reading.value(from, Wrong::TouchingRefused, just_taken.end + 1);
    candidate.start >= from && candidate.start != just_taken.start && !wrongly_hidden(candidate, just_taken, reading)
}

/// The stretch taken at a candidate start.
fn at_start(candidates: &Candidates, all: &[Stretch], start: usize) -> Stretch {
    let here: Vec<Stretch> = match candidates.reading.is(Wrong::LongestFocusFirst) {
        false => all.iter().copied().filter(|stretch| stretch.start == start).collect(),
        true => foci_under_left(candidates, start),
    };
    choice(&here, candidates.reading).expect("a candidate start")
}

/// "At a taken start the longest candidate is taken; among equal stretches, the lowest rule number." Document 02,
/// No. 5: "At a taken start the longest still wins".
pub fn longest(stretches: &[Stretch]) -> Option<Stretch> {
    stretches.iter().copied().max_by_key(|stretch| (stretch.end, Reverse(stretch.rule)))
}

fn choice(here: &[Stretch], reading: Reading) -> Option<Stretch> {
    let each = here.iter().copied();
    if reading.is(Wrong::LowestRuleFirst) {
        return each.max_by_key(|stretch| (Reverse(stretch.rule), stretch.end));
    }
    if reading.is(Wrong::FirstEnd) {
        return each.min_by_key(|stretch| (stretch.end, stretch.rule));
    }
    if reading.is(Wrong::HighestRuleTies) {
        return each.max_by_key(|stretch| (stretch.end, stretch.rule));
    }
    wrong_choice(here, reading).or(longest(here))
}

/// For a wrong reading: the foci at a start, whether or not their right contexts hold.
fn foci_under_left(candidates: &Candidates, start: usize) -> Vec<Stretch> {
    let rules = candidates.rules().filter(|rule| candidates.left_holds(*rule, start));
    rules.flat_map(|rule| candidates.foci(rule, start)).collect()
}

/// For a wrong reading: left contexts are looked for in what was written so far.
fn taken_with_context_in_output(candidates: &Candidates) -> Vec<Stretch> {
    let mut taken = Vec::new();
    let mut written: Vec<u8> = Vec::new();
    let mut start = 0;
    while start <= candidates.tape.len() {
        let held = |rule: &usize| candidates.language(*rule, LEFT).holds_ending_at(&written, written.len());
        let rules = candidates.rules().filter(held);
        let here: Vec<Stretch> = rules.flat_map(|rule| candidates.under_left(rule, start)).collect();
        let stretch = longest(&here);
        if let Some(stretch) = stretch {
            written.extend_from_slice(&candidates.book.words[stretch.rule]);
            taken.push(stretch);
        }
        let end = stretch.map_or(start, |stretch| stretch.end);
        if end == start {
            written.extend(candidates.tape.get(start));
        }
        start = end.max(start + 1);
    }
    taken
}
