//! What document 02, No. 6, speaks of is met by the fixed-seed run everywhere and often, and often a call names no symbol
//! above 15.

use second::book::{self, Book};
use second::call::{Call, Operation};
use second::digits;
use second::generate::calls::call;
use second::generate::lines::inputs;
use second::numbering;
use second::reading::{Reading, Wrong};
use second::stretches::Stretches;
use second::wrong_symbol::is_old;

const SEED: u64 = 1;
const CALLS: u64 = 4000;
const TAPES: usize = 2000;

fn is_new(symbol: &u8) -> bool {
    *symbol > 15
}

/// A call with a valid book, and a tape without bad symbols where it has one.
struct Met {
    call: Call,
    book: Book,
}

impl Met {
    fn of(call: Call) -> Option<Met> {
        let is_good = call.operation != Operation::Show && call.tape.iter().all(|symbol| *symbol < 32);
        let book = book::read(&call.book, Reading::TRUE).ok().filter(|_| is_good)?;
        Some(Met { call, book })
    }

    fn has_tape(&self) -> bool {
        matches!(self.call.operation, Operation::Rewrite | Operation::Account | Operation::Heat)
    }

    fn tape_is_old(&self) -> bool {
        !self.call.tape.iter().any(is_new)
    }

    fn has_arc(&self, wanted: impl Fn(u8, u8) -> bool) -> bool {
        self.book.arcs.iter().any(|arc| wanted(arc.lowest, arc.highest))
    }

    fn has_word_with(&self, wanted: impl Fn(&u8) -> bool) -> bool {
        self.book.words.iter().flatten().any(wanted)
    }

    /// Whether the sets of a side get other numbers if new symbols come first, or all old ones.
    fn numbers_depend_on_order(&self) -> [bool; 2] {
        let by = |reading: Reading| {
            [numbering::left, numbering::right].map(|side| side(&self.book, 20, reading).map(|side| side.sets))
        };
        let truly = by(Reading::TRUE);
        [Wrong::UpperFirst, Wrong::UpperLast].map(|wrong| {
            let wrongly = by(Reading::with(wrong));
            (0..2).any(|side| truly[side].is_some() && truly[side] != wrongly[side])
        })
    }
}

fn met() -> Vec<Met> {
    (0..CALLS).filter_map(|number| Met::of(call(SEED, number))).collect()
}

/// At least so many of them are as wanted.
fn at_least(least: usize, what: &str, of: &[Met], wanted: impl Fn(&Met) -> bool) {
    let count = of.iter().filter(|met| wanted(met)).count();
    println!("{count} of {}: {what}", of.len());
    assert!(count >= least, "{count} of {}: {what}", of.len());
}

#[test]
fn old_and_new_books_and_tapes() {
    let (with_tape, others): (Vec<Met>, Vec<Met>) = met().into_iter().partition(Met::has_tape);
    let in_ten = |tenths: usize| tenths * with_tape.len() / 10;
    at_least(in_ten(3), "old book, old tape", &with_tape, |met| is_old(&met.book) && met.tape_is_old());
    at_least(in_ten(1) / 4, "old book, new tape", &with_tape, |met| is_old(&met.book) && !met.tape_is_old());
    at_least(in_ten(1) / 3, "new book, old tape", &with_tape, |met| !is_old(&met.book) && met.tape_is_old());
    at_least(in_ten(3), "new book, new tape", &with_tape, |met| !is_old(&met.book) && !met.tape_is_old());
    at_least(others.len() * 3 / 10, "old book alone", &others, |met| is_old(&met.book));
    at_least(others.len() * 3 / 10, "new book alone", &others, |met| !is_old(&met.book));
}

#[test]
fn each_symbol_in_each_place() {
    let met = met();
    for symbol in 0..32 {
        let least = if [0, 1, 15, 16, 31].contains(&symbol) { 100 } else { 20 };
        at_least(least, &format!("{symbol} in a word"), &met, |met| met.has_word_with(|other| *other == symbol));
        at_least(least, &format!("{symbol} lowest"), &met, |met| met.has_arc(|lowest, _| lowest == symbol));
        at_least(least, &format!("{symbol} highest"), &met, |met| met.has_arc(|_, highest| highest == symbol));
        let on_tape = |met: &Met| met.has_tape() && met.call.tape.contains(&symbol);
        at_least(least, &format!("{symbol} on a tape"), &met, on_tape);
    }
    for (lowest, highest) in [(0, 15), (0, 31), (15, 16), (16, 31), (31, 31)] {
        let arc = |met: &Met| met.has_arc(|one, other| (one, other) == (lowest, highest));
        at_least(40, &format!("an arc from {lowest} to {highest}"), &met, arc);
    }
}

#[test]
fn new_symbols_decide() {
    let met: Vec<Met> = met().into_iter().filter(|met| met.call.tape.len() <= 60).collect();
    let with_tape = |met: &&Met| matches!(met.call.operation, Operation::Rewrite | Operation::Account);
    let (mut foci, mut words, mut kept, mut tapes) = (0, 0, 0, 0);
    for Met { call, book } in met.iter().filter(with_tape) {
        let taken = Stretches::fast(book, &call.tape).taken;
        let is_kept = |at: usize| !taken.iter().any(|stretch| (stretch.start..stretch.end).contains(&at));
        foci += usize::from(taken.iter().any(|stretch| call.tape[stretch.start..stretch.end].iter().any(is_new)));
        words += usize::from(taken.iter().any(|stretch| book.words[stretch.rule].iter().any(is_new)));
        kept += usize::from((0..call.tape.len()).any(|at| is_new(&call.tape[at]) && is_kept(at)));
        tapes += 1;
    }
    println!("of {tapes}: {foci} with new symbols replaced, {words} with new symbols written, {kept} with some kept");
    assert!([foci, words, kept].iter().all(|count| 8 * count > tapes), "{foci} {words} {kept} {tapes}");
    let mut depend = [0; 2];
    for met in met.iter().take(600) {
        let on_order = met.numbers_depend_on_order();
        depend.iter_mut().zip(on_order).for_each(|(books, depends)| *books += u64::from(depends));
    }
    println!(
        "of 600 books {} are numbered otherwise with 16 to 31 first, {} with all old ones first",
        depend[0], depend[1]
    );
    assert!(depend[0] > 60 && depend[1] > 20, "{depend:?}");
}

/// The symbols and lengths just past what is accepted, and those just past what was.
#[test]
fn first_refused_ones() {
    let calls: Vec<Call> = (0..CALLS).map(|number| call(SEED, number)).collect();
    let read = |call: &Call, reading: Reading| book::read(&call.book, reading).err();
    let tells = |wrong: Wrong| {
        let differs = |call: &&Call| read(call, Reading::TRUE) != read(call, Reading::with(wrong));
        calls.iter().filter(differs).count()
    };
    for wrong in [
        Wrong::WordFromSixteen,
        Wrong::WordFromThirtyOne,
        Wrong::WordFromThirtyThree,
        Wrong::LowestFromSixteen,
        Wrong::HighestFromSixteen,
        Wrong::HighestFromThirtyOne,
        Wrong::HighestFromThirtyThree,
        Wrong::ArcFromThirtyThree,
    ] {
        println!("{} books tell {}", tells(wrong), wrong.name());
        assert!(tells(wrong) >= 10, "{} books tell {}", tells(wrong), wrong.name());
    }
    let first_bad = |call: &&Call| call.tape.iter().find(|symbol| **symbol > 31) == Some(&32);
    let with_tape = calls.iter().filter(|call| call.operation != Operation::Show);
    assert!(with_tape.clone().filter(first_bad).count() > 100);
    for rows in [8191, 8192, 8193, 16_383] {
        let count = with_tape.clone().filter(|call| call.lengths.rows == rows).count();
        assert!(count > 10, "{rows} bytes for rows: {count}");
    }
}

/// The program's lines: each digit, characters just beyond the digits and capitals; and lines without new digits.
#[test]
fn lines_of_the_program() {
    let input = inputs(SEED, TAPES).pop().expect("a large input");
    let lines: Vec<&[u8]> = input.split(|byte| *byte == b'\n').collect();
    let with = |byte: u8| lines.iter().filter(|line| line.contains(&byte)).count();
    for symbol in 0..32 {
        let digit = digits::of(symbol).expect("a digit") as u8;
        assert!(with(digit) >= 10, "{} lines with {}", with(digit), digit as char);
    }
    let first_bad = |line: &[u8]| line.iter().copied().find(|byte| digits::read(*byte).is_none());
    let short: Vec<&[u8]> = lines.iter().copied().filter(|line| line.len() <= 4096).collect();
    for byte in *b"w`:/@[AFGVW\r" {
        let refused = short.iter().filter(|line| first_bad(line) == Some(byte)).count();
        assert!(refused >= 4, "{refused} lines refused for {}", byte as char);
    }
    let is_new = |line: &[u8]| line.iter().any(|byte| (b'g'..=b'v').contains(byte));
    let old = lines.iter().filter(|line| !is_new(line)).count();
    // The house book keeps new symbols, so that they are printed.
    let new = short.iter().filter(|line| is_new(line) && first_bad(line).is_none()).count();
    println!("of {} lines {old} without new digits, {new} accepted with some", lines.len());
    assert!(2 * old > lines.len() && 10 * new > lines.len(), "{old} {new}");
}
