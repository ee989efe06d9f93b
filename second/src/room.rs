//! Reply 15 and the room for a result.

use crate::answer::Lent;
use crate::book::Refusal;
use crate::reading::{Reading, Wrong};

pub fn room(given: usize, needed: usize, reading: Reading) -> bool {
    given >= needed && !(reading.is(Wrong::RoomExactRefused) && given == needed)
}

/// "15 leaves workspace and scratch as acceptance does; outputs, origins and account unchanged." Place: "symbols or
/// words needed".
pub fn no_room(lent: &mut Lent, untouched: Lent, needed: usize, given: usize, reading: Reading) -> Refusal {
    if reading.is(Wrong::RoomKeepsScratch) {
        lent.scratch = untouched.scratch;
    } else if reading.is(Wrong::RoomKeepsWorkspace) {
        (lent.rows, lent.sets) = (untouched.rows, untouched.sets);
    }
    let missing = needed.saturating_sub(given);
    Refusal { reply: 15, place: reading.value(needed, Wrong::RoomMissing, missing) }
}

/// "Acceptance writes only the front of each output buffer."
pub fn write_front<T: Copy + Default>(buffer: &mut [T], written: &[T], reading: Reading) {
    let length = written.len().min(buffer.len());
    buffer[..length].copy_from_slice(&written[..length]);
    if reading.is(Wrong::OutputClearsRest) {
        buffer[length..].fill(T::default());
    }
}
