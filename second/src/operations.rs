//! The operations: reply, place, counts, and every lent buffer afterwards.

use crate::account::{self, FIVE_WORDS, WORDS_A_LINE};
use crate::admission::{admit, LONGEST_TAPE};
use crate::agreement::Agreement;
use crate::answer::{Answer, Lent};
use crate::book::{self, Book, Refusal};
use crate::call::{Call, Operation};
use crate::heat::heat;
use crate::import::import;
use crate::reading::{Reading, Wrong};
use crate::rewrite::{self, Rewritten};
use crate::room::{no_room, room, write_front};
use crate::show::show;
use crate::sides::Sides;
use crate::workspace;

type Counts = [usize; 4];
const NO_COUNTS: Counts = [0; 4];

/// What the documents say of a call.
pub fn answer(call: &Call, reading: Reading) -> Answer {
    answer_by(call, &Agreement::of(reading))
}

/// The same; the agreement then knows how it was worked out.
pub fn answer_by(call: &Call, agreement: &Agreement) -> Answer {
    let reading = agreement.reading;
    let mut lent = Lent::before(call);
    let result = match call.operation {
        Operation::Check => check(call, reading),
        Operation::Build => build(call, &mut lent, agreement),
        Operation::Rewrite => rewrite(call, &mut lent, agreement),
        Operation::Account => account(call, &mut lent, agreement),
        Operation::Show => return shown(call, reading),
        Operation::Heat => heat(call, &mut lent, agreement).map(|()| NO_COUNTS),
        // "Acceptance returns the length written"
        Operation::Import => import(call, &mut lent, reading).map(|length| [length, 0, 0, 0]),
    };
    let (refusal, counts) = match result {
        Ok(counts) => (Refusal { reply: 0, place: 0 }, counts),
        // "Every refusal returns 0 for these."
        Err(refusal) => (refusal, counts_of_refusal(call, refusal, reading)),
    };
    Answer {
        operation: call.operation,
        reply: refusal.reply,
        place: refusal.place as u64,
        counts: counts.map(|count| count as u64),
        part: Vec::new(),
        lent,
    }
}

fn counts_of_refusal(call: &Call, refusal: Refusal, reading: Reading) -> Counts {
    if reading.is(Wrong::CountsKept) && call.operation == Operation::Check {
        return book::read_with_rest(&call.book, reading).map_or_else(|(_, rest)| counts_of_book(&rest), |_| NO_COUNTS);
    }
    let kept = reading.is(Wrong::ImportKeepsLength) && call.operation == Operation::Import;
    if (reading.is(Wrong::RoomKeepsCounts) || kept) && refusal.reply == 15 {
        return [refusal.place, 0, 0, 0];
    }
    NO_COUNTS
}

/// "CHECK returns the counts of rules, states and arcs"
fn counts_of_book(book: &Book) -> Counts {
    [book.words.len(), book.states.len(), book.arcs.len(), 0]
}

fn check(call: &Call, reading: Reading) -> Result<Counts, Refusal> {
    book::read(&call.book, reading).map(|book| counts_of_book(&book))
}

/// "BUILD the two set counts"
fn build(call: &Call, lent: &mut Lent, agreement: &Agreement) -> Result<Counts, Refusal> {
    let book = book::read(&call.book, agreement.reading)?;
    let sides = Sides::of(&book, agreement);
    let reading = sides.reading;
    admit(call, &sides, lent, reading)?;
    let (left, right) = sides.both();
    workspace::write(lent, left, right, reading);
    Ok([left.sets.len(), right.sets.len(), 0, 0])
}

fn rewrite(call: &Call, lent: &mut Lent, agreement: &Agreement) -> Result<Counts, Refusal> {
    let book = book::read(&call.book, agreement.reading)?;
    let sides = Sides::of(&book, agreement);
    let reading = sides.reading;
    admit(call, &sides, lent, reading)?;
    let stretches = agreement.stretches(&book, &call.tape);
    let reading = reading.value(reading, Wrong::LanesAloneAtLast, Reading::with(Wrong::AllAtStart));
    let reading = reading.value(reading, Wrong::LanesAloneInsert, Reading::with(Wrong::NothingInserted));
    let Rewritten { length, taken } = rewrite::rewrite(call, &sides, &stretches, lent, reading)?;
    Ok([length, taken, 0, 0])
}

/// "ACCOUNT the number of candidates"
fn account(call: &Call, lent: &mut Lent, agreement: &Agreement) -> Result<Counts, Refusal> {
    let book = book::read(&call.book, agreement.reading)?;
    let sides = Sides::of(&book, agreement);
    let reading = sides.reading;
    admit(call, &sides, lent, reading)?;
    let untouched = lent.clone();
    workspace::fill(call, &sides, lent, reading);
    let stretches = agreement.stretches(&book, &call.tape).accounted(call.tape.len(), reading);
    let length = account::length(&stretches, reading);
    // Document 02, No. 1: "15 now counts six words a candidate."
    let needed = WORDS_A_LINE * length;
    let enough = reading.value(needed, Wrong::RoomOfFive, FIVE_WORDS * length);
    if !room(lent.lines.len(), enough, reading) {
        if reading.is(Wrong::RoomWritesFront) && length <= LONGEST_TAPE {
            write_front(&mut lent.lines, &account::lines(&stretches, reading).concat(), reading);
        }
        let needed = reading.value(needed, Wrong::RoomInLines, length);
        let needed = reading.value(needed, Wrong::RoomInFives, FIVE_WORDS * length);
        return Err(no_room(lent, untouched, needed, call.lengths.lines, reading));
    }
    let lines = account::lines(&stretches, reading);
    write_front(&mut lent.lines, &lines.concat(), reading);
    Ok([length, 0, 0, 0])
}

/// SHOW has no refusal: its reply is always 0.
fn shown(call: &Call, reading: Reading) -> Answer {
    let part = show(&call.tape, &call.account, call.line, reading);
    Answer {
        operation: Operation::Show,
        reply: 0,
        place: part.start as u64,
        counts: [part.len() as u64, 0, 0, 0],
        part: call.tape[part].to_vec(),
        lent: Lent::default(),
    }
}
