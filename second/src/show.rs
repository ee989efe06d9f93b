//! SHOW: document 01, "hands back that stretch of the tape itself"; document 02, No. 1: "SHOW and the printed C line
//! follow."; and No. 5.

use std::ops::Range;

use crate::account::{FIVE_WORDS, WORDS_A_LINE};
use crate::reading::{Reading, Wrong};
use crate::wrong_insertion::wrong_part;

/// The part of the tape that SHOW hands back.
///
/// "If the line is not wholly inside the account, or its start is not below its end, or its end is past the tape, it
/// hands back the empty part at the tape's front." Document 02, No. 5: "SHOW gives an empty stretch as an empty part at
/// its start, and the front only when start is above end or for the other two causes."
pub fn show(tape: &[u8], account: &[u16], line: u32, reading: Reading) -> Range<usize> {
    let empty = reading.value(0..0, Wrong::EmptyPartAtEnd, tape.len()..tape.len());
    let Some((start, end)) = stretch(account, line, reading) else { return empty };
    if let Some(part) = wrong_part(start, end, tape.len(), reading) {
        return part;
    }
    let end = reading.value(end, Wrong::PastTapeCut, end.min(tape.len()));
    let past = end > reading.value(tape.len(), Wrong::TapeEndHidden, tape.len().saturating_sub(1));
    if start > end || past {
        return empty;
    }
    start..end
}

/// Start and end of a line that is wholly inside the account; the first line is line 0.
fn stretch(account: &[u16], line: u32, reading: Reading) -> Option<(usize, usize)> {
    let line = match reading.is(Wrong::LinesFromOne) {
        false => u64::from(line),
        true => u64::from(line).checked_sub(1)?,
    };
    let words = reading.value(WORDS_A_LINE, Wrong::ShowByFive, FIVE_WORDS) as u64;
    let first = match reading.is(Wrong::LineWraps) {
        false => line * words,
        true => u64::from((line as u32).wrapping_mul(words as u32)),
    };
    let needed = reading.value(words, Wrong::LineBegunIsEnough, 3);
    let needed = reading.value(needed, Wrong::SixthWordMissing, FIVE_WORDS as u64);
    let needed = reading.value(needed, Wrong::LastLineHidden, needed + 1);
    if first + needed > account.len() as u64 {
        return None;
    }
    let first = first as usize;
    Some((account[first + 1] as usize, account[first + 2] as usize))
}
