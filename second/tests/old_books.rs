//! Document 02, No. 6: "Accounts and outputs of old books on old tapes do not change where the book still builds." Old are
//! those that name no symbol above 15; the reading of sixteen symbols says how they were answered before.

use second::answer::{Answer, Lent};
use second::book;
use second::call::{Call, Operation};
use second::draft::{self, Part, Rule};
use second::generate::calls::call;
use second::generate::full;
use second::generate::lines::inputs;
use second::operations::answer;
use second::program;
use second::reading::{Reading, Wrong};
use second::wrong_symbol::is_old;

const SEED: u64 = 12;
const CALLS: u64 = 5000;
/// Rows enough before, and rows enough now.
const OLD: usize = 8192;
const NEW: usize = 16_384;

fn before() -> Reading {
    Reading::with(Wrong::SixteenSymbols)
}

/// A call with an old book, an old tape, and so many bytes for rows.
fn old_call(number: u64, rows: usize) -> Option<Call> {
    let mut call = call(SEED, number);
    let builds = matches!(call.operation, Operation::Build | Operation::Rewrite | Operation::Account | Operation::Heat);
    let book = book::read(&call.book, Reading::TRUE).ok()?;
    call.lengths.rows = rows;
    (builds && is_old(&book) && call.tape.iter().all(|symbol| *symbol < 16)).then_some(call)
}

/// Nothing else than the rows differs; of these the first 16 entries are what they were, and the others 0.
fn alike(call: &Call, number: u64) -> Answer {
    let (old, new) = (answer(call, before()), answer(call, Reading::TRUE));
    let lent = Lent { rows: old.lent.rows.clone(), ..new.lent.clone() };
    assert_eq!(Answer { lent, ..new.clone() }, old, "call {number}");
    let written = new.lent.rows != Lent::before(call).rows;
    if written {
        for (row, entries) in new.lent.rows[..NEW].chunks(32).enumerate() {
            assert_eq!(entries[..16], old.lent.rows[16 * row..][..16], "call {number}, row {row}");
            assert_eq!(entries[16..], [0; 16], "call {number}, row {row}");
        }
        assert!(new.lent.rows[NEW..].iter().all(|byte| *byte == call.fill), "call {number}");
    }
    new
}

#[test]
fn accounts_and_outputs_do_not_change() {
    let (mut replies, mut lines, mut outputs) = ([0; 18], 0, 0);
    for number in 0..CALLS {
        let Some(call) = old_call(number, NEW + number as usize % 3) else { continue };
        let answer = alike(&call, number);
        replies[answer.reply as usize] += 1;
        let [count, taken, ..] = answer.counts;
        lines += u64::from(call.operation == Operation::Account && count > 0);
        outputs += u64::from(call.operation == Operation::Rewrite && taken > 0);
    }
    assert!(replies[0] > 500 && lines > 100 && outputs > 100, "{replies:?} {lines} {outputs}");
    assert!([12, 13, 14, 15, 16].iter().all(|reply| replies[*reply] > 1), "{replies:?}");
}

/// "where the book still builds": with fewer bytes than now are enough it builds no longer, and that is all.
#[test]
fn with_old_rows_a_book_no_longer_builds() {
    let mut refused = 0;
    for number in 0..CALLS {
        let Some(call) = old_call(number, OLD + (number as usize * 7) % (NEW - OLD)) else { continue };
        let (old, new) = (answer(&call, before()), answer(&call, Reading::TRUE));
        if matches!(old.reply, 1..=11 | 16) {
            assert_eq!(new, old, "call {number}");
            continue;
        }
        assert_eq!((new.reply, new.place, new.counts), (11, 0, [0; 4]), "call {number}");
        assert_eq!(new.lent, Lent::before(&call), "call {number}");
        refused += 1;
    }
    assert!(refused > 500, "{refused}");
}

/// No symbol of an old book leads to a set that was not there: as many are built and refused as before.
#[test]
fn as_many_sets_as_before() {
    let mut call = Call::new(Operation::Build);
    call.lengths.rows = NEW;
    call.lengths.sets = 512;
    let mut builds = |rule: Rule| {
        call.book = draft::book(&[rule]);
        let built = alike(&call, 0);
        (built.reply, built.counts)
    };
    for (places, left, right) in [(8, (0, [256, 1, 0, 0]), (0, [1, 256, 0, 0])), (9, (13, [0; 4]), (14, [0; 4]))] {
        let part = full::old(full::places_before(places));
        assert_eq!(builds(Rule::idle(part.clone(), Part::any())), left);
        assert_eq!(builds(Rule::idle(Part::any(), part.mirrored())), right);
    }
}

/// A line without the new digits prints as it did, whatever else stands in it.
#[test]
fn old_lines_print_as_before() {
    let input = inputs(SEED, 600).pop().expect("a large input");
    let is_new = |line: &[u8]| line.iter().any(|byte| (b'g'..=b'v').contains(byte));
    let (new, old): (Vec<&[u8]>, Vec<&[u8]>) = input.split(|byte| *byte == b'\n').partition(|line| is_new(line));
    assert!(old.len() > 300 && new.len() > 60, "{} {}", old.len(), new.len());
    let printed = program::run(&old.join(&b'\n'), Reading::TRUE);
    assert_eq!(printed, program::run(&old.join(&b'\n'), before()));
    assert!(printed.lines().filter(|line| line.starts_with("X 10")).count() > 20);
    assert_ne!(program::run(&new.join(&b'\n'), Reading::TRUE), program::run(&new.join(&b'\n'), before()));
}
