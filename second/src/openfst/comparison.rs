//! `second openfst`: texts that OpenFst prints through a door, compared with the reference and with OpenFst's words.

use std::io;

use super::case::{Case, Place};
use crate::answer::Answer;
use crate::call::Call;
use crate::chance::Chance;
use crate::command::Command;
use crate::comparison::answers;
use crate::digits;
use crate::operations;
use crate::reading::Reading;

/// Texts put to one run of the door.
const TEXTS_A_RUN: u64 = 100;
/// Failures printed; all are counted.
const MOST_PRINTED: u64 = 5;
/// A run of this many texts must meet acceptance, 19 and 20, and for each part lines and places without.
const WHOLE_RUN: u64 = 100;

/// The replies to what OpenFst prints.
const REPLIES: [u8; 4] = [0, 19, 20, 21];

/// Compares `count` texts; true if all agree. The last line printed says how many were compared.
pub fn compare(door: &Command, seed: u64, count: u64) -> io::Result<bool> {
    println!("seed {seed}, {count} texts, door: {}", door.line());
    let mut tally = Tally::default();
    for first in (0..count).step_by(TEXTS_A_RUN as usize) {
        let numbers = first..count.min(first + TEXTS_A_RUN);
        let cases = numbers.map(|number| Case::of(&mut Chance::of(seed, number))).collect::<io::Result<Vec<Case>>>()?;
        match answered(door, &cases) {
            Ok(answers) => cases.iter().zip(answers).for_each(|(case, answers)| tally.add(case, &answers)),
            Err(error) => {
                println!("no whole answers: {error}");
                tally.failed += cases.len() as u64;
            }
        }
    }
    Ok(tally.report(count))
}

/// What a door answers for a text's part in one place of a book: to IMPORT, and to the ACCOUNT of each tape.
struct Answered {
    imported: Answer,
    accounted: Vec<(Call, Answer)>,
}

/// All answers for these texts, place by place.
fn answered(door: &Command, cases: &[Case]) -> io::Result<Vec<Vec<Answered>>> {
    let imports = cases.iter().flat_map(|case| case.places.iter().map(|place| case.import(place)));
    let mut imported = answers(door, &imports.collect::<Vec<_>>())?.into_iter();
    let mut answered: Vec<Vec<Answered>> = Vec::new();
    let mut accounts = Vec::new();
    for case in cases {
        answered.push(Vec::new());
        for (place, imported) in case.places.iter().zip(&mut imported) {
            accounts.push(case.accounts(place, &imported));
            answered.last_mut().expect("just begun").push(Answered { imported, accounted: Vec::new() });
        }
    }
    let mut accounted = answers(door, &accounts.concat())?.into_iter();
    for (answered, accounts) in answered.iter_mut().flatten().zip(accounts) {
        answered.accounted = accounts.into_iter().zip(&mut accounted).collect();
    }
    Ok(answered)
}

/// Texts by what came of them, and what their accounts had.
#[derive(Default)]
struct Tally {
    passed: u64,
    failed: u64,
    /// Texts by the reply that is expected for the left part.
    replies: [u64; REPLIES.len()],
    /// Words tried, and those that OpenFst accepts.
    tried: usize,
    accepted: usize,
    /// Lines of the left, focus and right part, and places where there is none.
    lines: [u64; 3],
    without: [u64; 3],
    /// Accounts that are refused since the book has too many sets.
    too_many_sets: u64,
}

impl Tally {
    fn add(&mut self, case: &Case, answered: &[Answered]) {
        let mut words = None;
        for (place, answered) in case.places.iter().zip(answered) {
            words = words.or_else(|| import_differs(case, place, &answered.imported));
            for (call, answer) in &answered.accounted {
                let differs = self.account_differs(case, place, call, answer);
                words = words.or(differs);
            }
        }
        let (reply, _) = case.expected(&case.places[0]);
        self.replies.iter_mut().zip(REPLIES).for_each(|(count, one)| *count += u64::from(one == reply));
        self.tried += case.tried.len();
        self.accepted += case.accepted.len();
        let Some(words) = words else {
            self.passed += 1;
            return;
        };
        self.failed += 1;
        if self.failed <= MOST_PRINTED {
            println!("{}\n  printed {:?}\n  {words}", case.drawing.in_words(), case.text);
        }
    }

    /// How the lines differ from OpenFst's words, if they do.
    fn account_differs(&mut self, case: &Case, place: &Place, call: &Call, answer: &Answer) -> Option<String> {
        if matches!(answer.reply, 13 | 14) {
            self.too_many_sets += 1;
            return operations::answer(call, Reading::TRUE).difference(answer);
        }
        let (wanted, places) = case.lines(place, &call.tape);
        let part = place.part as usize;
        self.lines[part] += wanted.len() as u64;
        self.without[part] += (places - wanted.len()) as u64;
        let wanted: Vec<[u16; 3]> = wanted.iter().map(|(i, j)| [place.rule(), *i as u16, *j as u16]).collect();
        let lines: Vec<[u16; 3]> = answer.account().iter().map(|line| [line[0], line[1], line[2]]).collect();
        let differs = answer.reply != 0 || lines != wanted;
        differs.then(|| {
            let (tape, reply) = (digits::shown(&call.tape), answer.reply);
            format!("part {part}, tape {tape}: reply {reply}, lines {lines:?}, by OpenFst {wanted:?}")
        })
    }

    /// Prints what was compared; true if nothing failed and nothing was missed.
    fn report(&self, count: u64) -> bool {
        let replies = self.replies.iter().zip(REPLIES).map(|(texts, reply)| format!("{texts} with {reply}"));
        println!("texts by reply: {}", replies.collect::<Vec<_>>().join(", "));
        println!("{} words tried, {} of them accepted by OpenFst", self.tried, self.accepted);
        println!("lines of left, focus and right parts {:?}, and places without {:?}", self.lines, self.without);
        println!("{} accounts with too many sets", self.too_many_sets);
        let met = [&self.replies[..3], &self.lines, &self.without].concat();
        let missed = count >= WHOLE_RUN && self.failed == 0 && met.contains(&0);
        if missed {
            println!("never met: what has a 0 here, but for reply 21 and too many sets");
        }
        println!("{} passed, {} failed", self.passed, self.failed + u64::from(missed));
        self.failed == 0 && !missed
    }
}

/// How the answer to IMPORT differs from what is expected of the text, or from the reference's, if it does.
fn import_differs(case: &Case, place: &Place, imported: &Answer) -> Option<String> {
    let expected = case.expected(place);
    let got = (imported.reply, imported.place);
    if got != expected {
        return Some(format!("part {}: reply and place {got:?}, expected {expected:?}", place.part));
    }
    let words = operations::answer(&case.import(place), Reading::TRUE).difference(imported);
    words.map(|words| format!("part {}, first number {}: {words}", place.part, place.first()))
}
