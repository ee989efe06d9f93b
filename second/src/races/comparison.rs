//! `second races`: joined tapes through a door, compared with their two tapes alone, and all of them with the reference.

use std::io;
use std::slice::from_ref;

use super::case::{on_arc, on_no_arc, Case, CALLS};
use super::conditions::{Tally, WHOLE_RUN};
use super::law;
use crate::answer::Answer;
use crate::book;
use crate::call::Call;
use crate::command::Command;
use crate::comparison::{answers, Difference};
use crate::digits;
use crate::generate::races::case;
use crate::hex;
use crate::operations;
use crate::reading::Reading;
use crate::shrink::{smaller_books, smaller_lists};

/// Cases put to one run of the door, and smaller ones that are tried at a time.
const CASES_A_RUN: u64 = 100;
const TRIED_AT_ONCE: usize = 8;

/// Compares `count` cases; true if all agree. The last line printed says how many were compared.
pub fn compare(door: &Command, seed: u64, count: u64) -> io::Result<bool> {
    println!("seed {seed}, {count} cases, door: {}", door.line());
    let mut tally = Tally::default();
    for first in (0..count).step_by(CASES_A_RUN as usize) {
        let numbers = first..count.min(first + CASES_A_RUN);
        let cases: Vec<Case> = numbers.map(|number| case(seed, number, on_arc)).collect();
        match answered(door, &cases) {
            Ok(answers) => cases.iter().zip(answers).for_each(|(case, answers)| tally.add(case, &answers)),
            Err(Difference { at, words }) => {
                let passed = first + at as u64;
                println!("case {passed} of seed {seed} differs: {words}");
                report_smallest(door, cases[at].clone(), words);
                println!("{passed} passed, 1 failed");
                return Ok(false);
            }
        }
    }
    print!("{}", tally.table());
    let never_met = if count >= WHOLE_RUN { tally.never_met() } else { Vec::new() };
    never_met.iter().for_each(|what| println!("never met: {what}"));
    println!("{count} passed, {} failed", never_met.len());
    Ok(never_met.is_empty())
}

/// The door's answers case by case; or the first case on which it differs, and how.
fn answered(door: &Command, cases: &[Case]) -> Result<Vec<Vec<Answer>>, Difference> {
    let calls: Vec<Call> = cases.iter().flat_map(Case::calls).collect();
    let answers = match answers(door, &calls) {
        Ok(answers) => answers,
        Err(error) => return Err(stopping(door, cases, format!("no whole answers ({error})"))),
    };
    let answers: Vec<Vec<Answer>> = answers.chunks(CALLS).map(<[Answer]>::to_vec).collect();
    let differences = cases.iter().zip(&answers).map(|(case, answers)| difference(case, answers));
    match differences.enumerate().find_map(|(at, words)| Some(Difference { at, words: words? })) {
        Some(difference) => Err(difference),
        None => Ok(answers),
    }
}

/// The first of these cases that alone keeps the door from answering, or the first of all.
fn stopping(door: &Command, cases: &[Case], words: String) -> Difference {
    let alone = |case: &Case| if cases.len() > 1 { answered(door, from_ref(case)).err() } else { None };
    let stopping = cases.iter().enumerate().find_map(|(at, case)| Some(Difference { at, ..alone(case)? }));
    stopping.unwrap_or(Difference { at: 0, words })
}

/// How the answers break the law, or differ from the reference's, if they do.
fn difference(case: &Case, answers: &[Answer]) -> Option<String> {
    let differs = |(call, answer): (&Call, &Answer)| {
        let words = operations::answer(call, Reading::TRUE).difference(answer)?;
        Some(format!("{} of tape {}: {words}", call.operation.name(), digits::shown(&call.tape)))
    };
    law::difference(case, answers).or_else(|| case.calls().iter().zip(answers).find_map(differs))
}

/// A case that fails only after others is printed as it stands.
fn report_smallest(door: &Command, failing: Case, words: String) {
    let mut smallest = failing;
    while let Some(next) = first_failing(door, smaller(&smallest)) {
        smallest = next;
    }
    let words = answered(door, from_ref(&smallest)).err().map_or(words, |difference| difference.words);
    println!("smallest case found: {}{words}", smallest.in_words());
    let requests: Vec<u8> = smallest.calls().iter().flat_map(Call::to_bytes).collect();
    println!("repeat it with: second race --door \"{}\" {}", door.line(), hex::of(&requests));
}

fn first_failing(door: &Command, mut cases: impl Iterator<Item = Case>) -> Option<Case> {
    loop {
        let tried: Vec<Case> = cases.by_ref().take(TRIED_AT_ONCE).collect();
        if tried.is_empty() {
            return None;
        }
        if let Err(difference) = answered(door, &tried) {
            return Some(tried[difference.at].clone());
        }
    }
}

/// Cases with a smaller book or tape, as far as the law speaks of them.
fn smaller(case: &Case) -> impl Iterator<Item = Case> + '_ {
    let books = smaller_books(&case.book).into_iter().map(|book| Case { book, ..case.clone() });
    let firsts = smaller_lists(&case.first).into_iter().map(|first| Case { first, ..case.clone() });
    let seconds = smaller_lists(&case.second).into_iter().map(|second| Case { second, ..case.clone() });
    let is_unused = |case: &Case| {
        let book = book::read(&case.book, Reading::TRUE);
        book.is_ok_and(|book| on_no_arc(&book, on_arc).contains(&case.marker))
    };
    let lent = books.chain(firsts).chain(seconds).filter(is_unused).map(Case::lent_again);
    lent.filter(Case::is_accepted)
}

/// `second race`: one case again.
pub fn one(door: &Command, case: &Case) -> io::Result<bool> {
    print!("{}", case.in_words());
    let failed =
        answered(door, from_ref(case)).map_err(|difference| println!("differs: {}", difference.words)).is_err();
    println!("{} passed, {} failed", u8::from(!failed), u8::from(failed));
    Ok(!failed)
}
