//! REWRITE of a call that is admitted.

use crate::answer::Lent;
use crate::book::Refusal;
use crate::call::Call;
use crate::candidates::Stretch;
use crate::output::output;
use crate::reading::{Reading, Wrong};
use crate::room::{no_room, room, write_front};
use crate::sides::Sides;
use crate::stretches::Stretches;
use crate::workspace;
use crate::wrong_insertion::measured;

/// "REWRITE the output length and the number of stretches taken"
#[derive(Clone, Copy)]
pub struct Rewritten {
    pub length: usize,
    pub taken: usize,
}

fn count(taken: &[Stretch], stretches: &Stretches, reading: Reading) -> usize {
    let longer = taken.iter().filter(|taken| !taken.is_empty()).count();
    let count = reading.value(taken.len(), Wrong::InsertedUncounted, longer);
    reading.value(count, Wrong::TakenCountsCandidates, stretches.count)
}

/// Workspace, scratch and output, given the stretches of the call's tape.
pub fn rewrite(
    call: &Call,
    sides: &Sides,
    stretches: &Stretches,
    lent: &mut Lent,
    reading: Reading,
) -> Result<Rewritten, Refusal> {
    let untouched = lent.clone();
    workspace::fill(call, sides, lent, reading);
    let taken = stretches.rewritten(call.tape.len(), reading);
    let output = output(sides.book, &call.tape, &taken, reading);
    let length = output.symbols.len();
    let needed = measured(length, sides.book, &taken, call.tape.len(), reading);
    let out = room(lent.out.len(), needed, reading) || reading.is(Wrong::OutUntested);
    let origins = room(lent.origins.len(), needed, reading) || reading.is(Wrong::OriginsUntested);
    if !(out && origins) {
        if reading.is(Wrong::RoomWritesFront) {
            write_front(&mut lent.out, &output.symbols, reading);
            write_front(&mut lent.origins, &output.origins, reading);
        }
        return Err(no_room(lent, untouched, needed, call.lengths.out.min(call.lengths.origins), reading));
    }
    write_front(&mut lent.out, &output.symbols, reading);
    write_front(&mut lent.origins, &output.origins, reading);
    Ok(Rewritten { length, taken: count(&taken, stretches, reading) })
}
