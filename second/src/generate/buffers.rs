//! Lengths of lent buffers: exact, larger, short by one, empty.

use crate::account::{self, WORDS_A_LINE};
use crate::admission::LONGEST_TAPE;
use crate::book::{self, Book, HIGHEST_SYMBOL};
use crate::call::{Call, Lengths, Operation};
use crate::chance::Chance;
use crate::lane;
use crate::output::output;
use crate::reading::Reading;
use crate::record::LONGEST_WORD;
use crate::stretches::Stretches;
use crate::workspace;
use crate::wrong_symbol::OLD_ROW_BYTES;

/// Lengths for a call whose book and tape are chosen.
pub fn lengths(call: &Call, chance: &mut Chance) -> Lengths {
    let mut lengths = Lengths::default();
    if !matches!(call.operation, Operation::Check | Operation::Show) {
        lengths.rows = rows(chance);
        lengths.sets = mostly_enough(workspace::SETS, chance);
    }
    if matches!(call.operation, Operation::Rewrite | Operation::Account) {
        lengths.scratch = mostly_enough(call.tape.len() + 1, chance);
    }
    if call.operation == Operation::Rewrite {
        (lengths.out, lengths.origins) = rooms_of_tape(call, chance);
    }
    if call.operation == Operation::Account {
        lengths.lines = around(needed(call), chance);
    }
    if call.operation == Operation::Heat {
        lengths.scratch = scratch_for_lanes(call, chance);
        (lengths.out, lengths.origins) = rooms_of_lanes(call, chance);
    }
    lengths
}

/// Bytes for rows that are mostly enough; now and then about as many as were enough before.
fn rows(chance: &mut Chance) -> usize {
    match chance.one_in(30) {
        true => OLD_ROW_BYTES - 1 + chance.below(3),
        false => mostly_enough(workspace::ROW_BYTES, chance),
    }
}

/// Symbols or words that an accepted call would need, so that the lengths tried lie around it.
pub fn needed(call: &Call) -> usize {
    let Ok(book) = book::read(&call.book, Reading::TRUE) else { return 3 };
    if is_refused(&call.tape) {
        return call.tape.len().min(20);
    }
    match call.operation {
        Operation::Rewrite => output_length(&book, &call.tape),
        _ => WORDS_A_LINE * account::length(&Stretches::fast(&book, &call.tape), Reading::TRUE),
    }
}

/// Symbols that each lane of a heat would need alone; one that is refused for its tape needs none.
pub fn needed_by_lanes(call: &Call) -> Vec<usize> {
    let Ok(book) = book::read(&call.book, Reading::TRUE) else { return Vec::new() };
    let needed = |tape: &&[u8]| if is_refused(tape) { 0 } else { output_length(&book, tape) };
    lane_tapes(call).iter().map(needed).collect()
}

fn is_refused(tape: &[u8]) -> bool {
    tape.len() > LONGEST_TAPE || tape.iter().any(|symbol| *symbol > HIGHEST_SYMBOL)
}

fn output_length(book: &Book, tape: &[u8]) -> usize {
    output(book, tape, &Stretches::fast(book, tape).taken, Reading::TRUE).symbols.len()
}

/// The tapes of those lanes that do not leave the common buffer.
pub fn lane_tapes(call: &Call) -> Vec<&[u8]> {
    let stretches = call.lanes.iter().filter_map(|lane| lane::stretch(*lane, call.tape.len()));
    stretches.map(|stretch| &call.tape[stretch]).collect()
}

/// Scratch that is mostly enough for every lane; now and then just enough for one of them, or short of it by one.
fn scratch_for_lanes(call: &Call, chance: &mut Chance) -> usize {
    let mut lengths: Vec<usize> = lane_tapes(call).iter().map(|tape| tape.len()).collect();
    lengths.retain(|length| *length <= LONGEST_TAPE);
    let longest = lengths.iter().copied().max().unwrap_or(0);
    if lengths.is_empty() || !chance.one_in(4) {
        return mostly_enough(longest + 1, chance);
    }
    chance.pick(&lengths) + chance.below(2)
}

/// The most symbols that a tape of n can need where every stretch taken has a symbol: eight for each.
pub fn most_replaced(n: usize) -> usize {
    LONGEST_WORD * n
}

/// The most symbols that a tape of n can need: each kept, and eight at each position and at the end.
pub fn most_inserted(n: usize) -> usize {
    n + LONGEST_WORD * (n + 1)
}

/// Rooms for symbols and origins about the most that a tape of n symbols can need.
fn about_most(n: usize, chance: &mut Chance) -> (usize, usize) {
    let most = chance.pick(&[most_replaced(n), most_inserted(n)]);
    let mut about = || chance.pick(&[most.saturating_sub(1), most, most + 1]);
    (about(), about())
}

/// Rooms for symbols and origins as needed or about that much; or about the most that the tape can need.
fn rooms_of_tape(call: &Call, chance: &mut Chance) -> (usize, usize) {
    if chance.one_in(6) {
        return about_most(call.tape.len(), chance);
    }
    let needed = needed(call);
    (around(needed, chance), around(needed, chance))
}

/// Rooms for all lanes or some of them; or with about the most that a lane can need left for it.
fn rooms_of_lanes(call: &Call, chance: &mut Chance) -> (usize, usize) {
    let needed = needed_by_lanes(call);
    if needed.is_empty() || !chance.one_in(6) {
        return (around_or_within(&needed, chance), around_or_within(&needed, chance));
    }
    let last = chance.below(needed.len());
    let before: usize = needed[..last].iter().sum();
    let (out, origins) = about_most(lane_tapes(call)[last].len(), chance);
    (before + out, before + origins)
}

/// Room for all lanes or about that much; or room that ends with a lane or inside one.
fn around_or_within(needed: &[usize], chance: &mut Chance) -> usize {
    let all = needed.iter().sum();
    if needed.is_empty() || !chance.one_in(3) {
        return around(all, chance);
    }
    let last = chance.below(needed.len());
    needed[..last].iter().sum::<usize>() + chance.below(needed[last] + 1)
}

fn mostly_enough(needed: usize, chance: &mut Chance) -> usize {
    let more = needed + chance.between(1, 40);
    let fewer = chance.below(needed);
    chance.weighted(&[(50, needed), (25, more), (3, needed - 1), (1, 0), (1, fewer)])
}

/// Room as needed or about that much.
pub fn around(needed: usize, chance: &mut Chance) -> usize {
    let more = needed + chance.between(1, 12);
    let fewer = chance.below(needed.max(1));
    let short = needed.saturating_sub(1);
    chance.weighted(&[(14, needed), (8, more), (2, short), (1, 0), (1, fewer), (1, needed / 2)])
}
