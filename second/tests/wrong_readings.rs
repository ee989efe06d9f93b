//! Every wrong reading, put into the reference alone, is caught by the fixed-seed run: a check that cannot fail is a
//! defect. No two of the operations are the same, and no two of the program.

use second::call::{Call, Operation};
use second::generate::calls::call;
use second::generate::lines::inputs;
use second::operations::answer;
use second::program;
use second::reading::{Reading, Wrong};
use second::tally::WHOLE_RUN;

/// The fixed seed of the gate.
const SEED: u64 = 1;
const TAPES: usize = 1000;

/// The lines of the program's large input that are put to it at a time.
const LINES: usize = 10;

/// How many calls are taken together, and how many bytes of book and tape make a small one.
const TOGETHER: u64 = 2000;
const SMALL: usize = 250;

/// The wrong readings that concern the program alone.
const OF_PROGRAM: [Wrong; 26] = [
    Wrong::OtherIsSixteen,
    Wrong::DigitsToF,
    Wrong::DigitsFolded,
    Wrong::DigitsUnlike,
    Wrong::CapitalsRead,
    Wrong::NewCapitalsRead,
    Wrong::AfterNineRead,
    Wrong::BeforeARead,
    Wrong::PrintedCapital,
    Wrong::NewPrintedCapital,
    Wrong::PrintedInHex,
    Wrong::PrintedFolded,
    Wrong::PrintedLate,
    Wrong::PrintedUnlike,
    Wrong::ReturnDropped,
    Wrong::OtherDropped,
    Wrong::EmptyLineSkipped,
    Wrong::LastNewlineAddsTape,
    Wrong::LastLineNeedsNewline,
    Wrong::EmptyOutputBlank,
    Wrong::AccountOf5999,
    Wrong::AccountOf6006,
    Wrong::AccountOf7200,
    Wrong::FiveWordsPrinted,
    Wrong::ShortAccountAlone,
    Wrong::RefusalEndsRun,
];

/// Readings that gave the same for everything so far. `None` is the true one, and stands before the others.
type Alike = Vec<Option<Wrong>>;

/// The true reading and these, before anything is put to them.
fn all_alike(wrong: impl Iterator<Item = Wrong>) -> Vec<Alike> {
    vec![[None].into_iter().chain(wrong.map(Some)).collect()]
}

/// Those that are still alike after what each reading gives here; `what` names it.
fn told_apart<T: PartialEq>(at_large: Vec<Alike>, what: &str, gives: impl Fn(Reading) -> T) -> Vec<Alike> {
    let mut still: Vec<Alike> = Vec::new();
    for alike in at_large {
        let mut given: Vec<(T, Alike)> = Vec::new();
        for wrong in &alike {
            let gives = gives(wrong.map_or(Reading::TRUE, Reading::with));
            match given.iter_mut().find(|(other, _)| *other == gives) {
                Some((_, alike)) => alike.push(*wrong),
                None => given.push((gives, vec![*wrong])),
            }
        }
        for caught in given[1..].iter().flat_map(|(_, alike)| alike).flatten().filter(|_| alike[0].is_none()) {
            println!("{:26} caught at {what}", caught.name());
        }
        still.extend(given.into_iter().map(|(_, alike)| alike).filter(|alike| alike.len() > 1));
    }
    still
}

fn is_small_import(call: &Call) -> bool {
    call.operation == Operation::Import && call.book.len() <= SMALL
}

/// All calls of the run. First the small imports, which are quick; then of every so many calls those first that are
/// small, since a large one takes long for each reading that is still alike.
fn calls_quick_first() -> impl Iterator<Item = (u64, Call)> {
    let calls = |first: u64, count: u64| (first..first + count).map(|number| (number, call(SEED, number)));
    let together = move |first: u64| {
        let others = calls(first, TOGETHER).filter(|(_, call)| !is_small_import(call));
        let (small, large): (Vec<_>, Vec<_>) = others.partition(|(_, call)| call.book.len() + call.tape.len() <= SMALL);
        small.into_iter().chain(large)
    };
    let imports = calls(0, WHOLE_RUN).filter(|(_, call)| is_small_import(call));
    imports.chain((0..WHOLE_RUN).step_by(TOGETHER as usize).flat_map(together))
}

/// Some call of the run tells each wrong reading from the true one, and from each other.
#[test]
fn each_wrong_reading_of_an_operation_is_caught() {
    let mut at_large = all_alike(Wrong::ALL.iter().copied().filter(|wrong| !OF_PROGRAM.contains(wrong)));
    for (number, call) in calls_quick_first() {
        at_large = told_apart(at_large, &format!("call {number}"), |reading| answer(&call, reading));
        if at_large.is_empty() {
            return;
        }
    }
    panic!("never told apart: {at_large:?}");
}

/// The same for the program. Its large input is put to it by a few lines at a time; the small ones end in every way.
#[test]
fn each_wrong_reading_of_the_program_is_caught() {
    let mut at_large = all_alike(OF_PROGRAM.into_iter());
    let mut inputs = inputs(SEED, TAPES);
    let large = inputs.pop().expect("a large input");
    let lines: Vec<&[u8]> = large.split(|byte| *byte == b'\n').collect();
    inputs.extend(lines.chunks(LINES).map(|lines| lines.join(&b'\n')));
    for (number, input) in inputs.iter().enumerate() {
        at_large = told_apart(at_large, &format!("input {number}"), |reading| program::run(input, reading));
    }
    assert!(at_large.is_empty(), "never told apart: {at_large:?}");
}

#[test]
fn the_names_are_different() {
    for (at, wrong) in Wrong::ALL.iter().enumerate() {
        assert!(Wrong::ALL[at + 1..].iter().all(|other| other.name() != wrong.name()), "{} twice", wrong.name());
    }
}
