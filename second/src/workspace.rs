//! The workspace and the scratch as a call leaves them.

use crate::answer::Lent;
use crate::book::SYMBOLS;
use crate::call::Call;
use crate::numbering::{Side, MOST_SETS};
use crate::reading::{Reading, Wrong};
use crate::sides::Sides;
use crate::wrong_symbol::{counts_old_bytes, entry_instead, writes_old_entries, Counted, OLD_ROW_BYTES, OLD_SYMBOLS};

/// "The workspace is 8,192 bytes (left rows, then right rows: 256 rows of 16 next numbers a side)". Document 02, No. 6:
/// "Rows have 32 entries, so the byte workspace is 16,384 bytes."
pub const ROW_BYTES: usize = 2 * MOST_SETS * SYMBOLS;
/// "and 512 64-bit sets (left, then right)"
pub const SETS: usize = 2 * MOST_SETS;

/// The byte at which an entry of a row stands. Left rows are counted from 0, right rows from 256.
pub fn entry(row: usize, symbol: usize) -> usize {
    row * SYMBOLS + symbol
}

/// The bytes of all rows, 16,384; by wrong readings as few as before.
pub fn row_bytes(counted: Counted, reading: Reading) -> usize {
    match counts_old_bytes(counted, reading) {
        false => ROW_BYTES,
        true => OLD_ROW_BYTES,
    }
}

/// Only a wrong reading comes to write into a workspace that is too short.
fn is_short(lent: &Lent, reading: Reading) -> bool {
    lent.rows.len() < row_bytes(Counted::ForEntries, reading) || lent.sets.len() < SETS
}

/// "13 and 14 leave the workspace parts all 0 and nothing else changed."
pub fn clear(lent: &mut Lent, reading: Reading) {
    if reading.is(Wrong::RefusalKeepsWorkspace) || is_short(lent, reading) {
        return;
    }
    if reading.is(Wrong::RefusalClearsAll) {
        lent.rows.fill(0);
        lent.sets.fill(0);
    }
    if reading.is(Wrong::RefusalClearsScratch) {
        lent.scratch.fill(0);
    }
    lent.rows[..row_bytes(Counted::Cleared, reading)].fill(0);
    lent.sets[..SETS].fill(0);
}

/// Writes both sides; "Entries past a count are 0."
pub fn write(lent: &mut Lent, left: &Side, right: &Side, reading: Reading) {
    if is_short(lent, reading) {
        return;
    }
    if !reading.is(Wrong::PastCountKept) {
        lent.rows[..row_bytes(Counted::Written, reading)].fill(0);
        lent.sets[..SETS].fill(0);
    }
    if reading.is(Wrong::AcceptanceClearsAll) {
        lent.rows.fill(0);
        lent.sets.fill(0);
    }
    let sides = reading.value([left, right], Wrong::SidesSwapped, [right, left]);
    for (first, side) in [0, MOST_SETS].into_iter().zip(sides) {
        write_side(lent, first, side, reading);
    }
}

/// Writes one side, its row 0 and set 0 standing at `first`.
pub fn write_side(lent: &mut Lent, first: usize, side: &Side, reading: Reading) {
    let entries = if writes_old_entries(reading) { OLD_SYMBOLS } else { SYMBOLS };
    for (number, row) in side.rows.iter().enumerate() {
        for (symbol, next) in row.iter().enumerate().take(entries) {
            let truly = entry(first + number, symbol);
            lent.rows[entry_instead(first + number, symbol, reading).unwrap_or(truly)] = *next as u8;
        }
    }
    lent.sets[first..first + side.sets.len()].copy_from_slice(&side.sets);
}

/// "Scratch byte i, for i from 0 to n, is the number of the right set at i."
pub fn write_scratch(lent: &mut Lent, mut numbers: Vec<usize>, reading: Reading) {
    if reading.is(Wrong::ScratchShifted) {
        numbers.rotate_left(1);
    }
    if reading.is(Wrong::ScratchWithoutEnd) {
        numbers.pop();
    }
    for (byte, number) in lent.scratch.iter_mut().zip(numbers) {
        *byte = number as u8;
    }
}

/// Workspace and scratch as acceptance leaves them.
pub fn fill(call: &Call, sides: &Sides, lent: &mut Lent, reading: Reading) {
    let (left, right) = sides.both();
    write(lent, left, right, reading);
    let sets = sides.agreement.right_sets(sides.book, &call.tape);
    let numbers = match reading.is(Wrong::ScratchLeft) {
        false => sets.iter().map(|set| right.number(*set)).collect(),
        true => left.numbers_along(&call.tape),
    };
    write_scratch(lent, numbers, reading);
}
