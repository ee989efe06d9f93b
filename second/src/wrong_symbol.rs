//! Wrong readings of thirty-two symbols: document 02, No. 6. Without one, each of these leaves what `book`, `admission`,
//! `numbering`, `workspace` and `output` say. Those of the program's digits are in `wrong_digit`.

use crate::agreement::PLAIN_TAPE;
use crate::book::{Arc, Book, HIGHEST_SYMBOL, SYMBOLS};
use crate::call::{Call, Operation};
use crate::numbering::MOST_SETS;
use crate::reading::{Reading, Wrong};
use crate::workspace::entry;

/// "symbols 0 to 15", as document 01 alone has it. An old book and an old tape name no others; the true reading makes no
/// difference of them.
pub const OLD_SYMBOLS: usize = 16;
pub const HIGHEST_OLD: u8 = OLD_SYMBOLS as u8 - 1;
/// "The workspace is 8,192 bytes (left rows, then right rows: 256 rows of 16 next numbers a side)"
pub const OLD_ROW_BYTES: usize = 2 * MOST_SETS * OLD_SYMBOLS;

/// Where a symbol is named.
#[derive(Clone, Copy, PartialEq, Eq)]
pub enum Named {
    InWord,
    AsLowest,
    AsHighest,
    OnTape,
}

use Named::{AsHighest, AsLowest, InWord, OnTape};

/// Those by which 5 or 10 begins at another symbol.
const FIRST_BAD: [(Wrong, &[Named], usize); 12] = [
    (Wrong::SixteenSymbols, &[InWord, AsLowest, AsHighest, OnTape], OLD_SYMBOLS),
    (Wrong::WordFromSixteen, &[InWord], OLD_SYMBOLS),
    (Wrong::WordFromThirtyOne, &[InWord], SYMBOLS - 1),
    (Wrong::WordFromThirtyThree, &[InWord], SYMBOLS + 1),
    (Wrong::LowestFromSixteen, &[AsLowest], OLD_SYMBOLS),
    (Wrong::HighestFromSixteen, &[AsHighest], OLD_SYMBOLS),
    (Wrong::HighestFromThirtyOne, &[AsHighest], SYMBOLS - 1),
    (Wrong::HighestFromThirtyThree, &[AsHighest], SYMBOLS + 1),
    (Wrong::ArcFromThirtyThree, &[AsLowest, AsHighest], SYMBOLS + 1),
    (Wrong::TapeFromSixteen, &[OnTape], OLD_SYMBOLS),
    (Wrong::TapeFromThirtyOne, &[OnTape], SYMBOLS - 1),
    (Wrong::TapeFromThirtyThree, &[OnTape], SYMBOLS + 1),
];

/// The first bad symbol by the wrong reading that is put in, if that is one of these.
pub fn first_bad_instead(named: Named, reading: Reading) -> Option<usize> {
    let instead = FIRST_BAD.iter().find(|(wrong, there, _)| reading.is(*wrong) && there.contains(&named));
    instead.map(|(_, _, first)| *first)
}

/// Those that hold with old books alone, and what they are there.
const WITH_OLD_BOOK: [(Wrong, Wrong); 3] = [
    (Wrong::OldBookFromSixteen, Wrong::TapeFromSixteen),
    (Wrong::OldBookOldLength, Wrong::OldLengthEnough),
    (Wrong::OldBookOldRows, Wrong::RowsOfSixteen),
];

/// How a call is read on once its book is known.
pub fn with_book(book: &Book, reading: Reading) -> Reading {
    let instead = WITH_OLD_BOOK.iter().find(|(wrong, _)| reading.is(*wrong));
    instead.filter(|_| is_old(book)).map_or(reading, |(_, wrong)| Reading::with(*wrong))
}

pub fn is_old(book: &Book) -> bool {
    let mut symbols = book.words.iter().flatten().copied().chain(book.arcs.iter().map(|arc| arc.highest));
    symbols.all(|symbol| symbol <= HIGHEST_OLD)
}

/// How the symbols of a call's tape are read for 10.
pub fn of_tape(call: &Call, reading: Reading) -> Reading {
    // The fast reading takes no bad symbol.
    if reading.is(Wrong::TapeFromThirtyThree) && call.tape.len() > PLAIN_TAPE {
        return Reading::TRUE;
    }
    match reading.is(Wrong::AccountFromSixteen) && call.operation == Operation::Account {
        false => reading,
        true => Reading::with(Wrong::TapeFromSixteen),
    }
}

/// Whether an arc is open to a symbol by the wrong reading that is put in, if that is one of these.
pub fn open_instead(arc: &Arc, symbol: u8, reading: Reading) -> Option<bool> {
    if reading.is_true() {
        return None;
    }
    let opens = |symbol: u8| arc.lowest <= symbol && symbol <= arc.highest;
    let is_old_range = (arc.lowest, arc.highest) == (0, HIGHEST_OLD);
    let instead = [
        (Wrong::OldRangeOpen, is_old_range || opens(symbol)),
        (Wrong::UpperClosed, symbol <= HIGHEST_OLD && opens(symbol)),
        (Wrong::UpperFolded, opens(folded(symbol))),
    ];
    instead.into_iter().find(|(wrong, _)| reading.is(*wrong)).map(|(_, open)| open)
}

/// The symbol, or if it is above 15 the one 16 below it.
pub fn folded(symbol: u8) -> u8 {
    symbol % OLD_SYMBOLS as u8
}

/// The symbols for which sets are numbered, in another order or fewer; if there are two lists, the sets are numbered by
/// the first and then on by the second.
pub fn numbered_instead(reading: Reading) -> Option<Vec<Vec<u8>>> {
    let (all, old, new) = (0..=HIGHEST_SYMBOL, 0..=HIGHEST_OLD, HIGHEST_OLD + 1..=HIGHEST_SYMBOL);
    let is = |wrong: Wrong| reading.is(wrong);
    match () {
        _ if is(Wrong::SymbolsDownward) => Some(vec![all.rev().collect()]),
        _ if is(Wrong::SixteenSymbols) || is(Wrong::UpperUnnumbered) => Some(vec![old.collect()]),
        _ if is(Wrong::UpperFirst) => Some(vec![new.chain(old).collect()]),
        _ if is(Wrong::UpperLast) => Some(vec![old.collect(), all.collect()]),
        _ if is(Wrong::SymbolsInPairs) => Some(vec![old.zip(new).flat_map(|(old, new)| [old, new]).collect()]),
        _ => None,
    }
}

fn has_old_rows(reading: Reading) -> bool {
    reading.is(Wrong::SixteenSymbols) || reading.is(Wrong::RowsOfSixteen)
}

/// Whether only the entries of old symbols are written.
pub fn writes_old_entries(reading: Reading) -> bool {
    has_old_rows(reading) || reading.is(Wrong::UpperEntriesZero)
}

/// The byte at which an entry stands by the wrong reading that is put in, if that is one of these.
pub fn entry_instead(row: usize, symbol: usize, reading: Reading) -> Option<usize> {
    let is = |wrong: Wrong| reading.is(wrong);
    let in_old_row = row * OLD_SYMBOLS + symbol % OLD_SYMBOLS;
    match () {
        _ if has_old_rows(reading) => Some(in_old_row),
        _ if is(Wrong::UpperRowsApart) => Some(in_old_row + symbol / OLD_SYMBOLS * OLD_ROW_BYTES),
        _ if is(Wrong::UpperEntriesFirst) => Some(entry(row, (symbol + OLD_SYMBOLS) % SYMBOLS)),
        _ if is(Wrong::RightRowsEarly) && row >= MOST_SETS => Some(entry(row, symbol) - OLD_ROW_BYTES / 2),
        _ => None,
    }
}

/// What the bytes of the rows are counted for.
#[derive(Clone, Copy)]
pub enum Counted {
    /// Entries stand in them.
    ForEntries,
    /// Without them the operation gives 11.
    Asked(Operation),
    /// 13 and 14 leave them 0.
    Cleared,
    /// Acceptance leaves 0 what stands past the counts in them.
    Written,
}

/// Whether as many bytes as before are counted.
pub fn counts_old_bytes(counted: Counted, reading: Reading) -> bool {
    let is = |wrong: Wrong| reading.is(wrong);
    let also = match counted {
        Counted::ForEntries => false,
        Counted::Asked(operation) => {
            is(Wrong::OldLengthEnough) || is(Wrong::HeatOldLength) && operation == Operation::Heat
        }
        Counted::Cleared => is(Wrong::OldFrontCleared),
        Counted::Written => is(Wrong::OldFrontWritten),
    };
    has_old_rows(reading) || also
}
