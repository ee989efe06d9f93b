//! Replies 9 to 14: the tests between the book and the room for the result.

use crate::answer::Lent;
use crate::book::{is_bad, Refusal};
use crate::call::{Call, Operation};
use crate::reading::{Reading, Wrong};
use crate::sides::Sides;
use crate::workspace;
use crate::wrong_symbol::{of_tape, Counted, Named};

/// "tape 0 to 4,096 symbols, one a byte"
pub const LONGEST_TAPE: usize = 4096;

/// "After the book: 9, 10, 11, 12, 13, 14, 15."
fn order(reading: Reading) -> [u8; 6] {
    let orders = [
        (Wrong::SymbolBeforeLength, [10, 9, 11, 12, 13, 14]),
        (Wrong::WorkspaceBeforeSymbol, [9, 11, 10, 12, 13, 14]),
        (Wrong::ScratchBeforeWorkspace, [9, 10, 12, 11, 13, 14]),
        (Wrong::SetsBeforeScratch, [9, 10, 11, 13, 12, 14]),
        (Wrong::RightBeforeLeft, [9, 10, 11, 12, 14, 13]),
    ];
    let wrongly = orders.iter().find(|(wrong, _)| reading.is(*wrong));
    wrongly.map_or([9, 10, 11, 12, 13, 14], |(_, order)| *order)
}

/// The tests between the book and the room for the result. "BUILD adds 11, 13, 14; the two others give all." HEAT as a
/// whole gives BUILD's.
pub fn admit(call: &Call, sides: &Sides, lent: &mut Lent, reading: Reading) -> Result<(), Refusal> {
    for reply in order(reading) {
        let of_build = matches!(call.operation, Operation::Build | Operation::Heat);
        let skipped = of_build && matches!(reply, 9 | 10 | 12);
        let place = if skipped { None } else { place_of(reply, call, sides, reading) };
        if let Some(place) = place {
            if reply >= 13 || reply == 12 && reading.is(Wrong::ScratchRefusalClears) {
                leave_workspace(reply, sides, lent, reading);
            }
            return Err(Refusal { reply, place });
        }
    }
    Ok(())
}

/// The place of a reply from 9 to 14 if it is to be given.
pub fn place_of(reply: u8, call: &Call, sides: &Sides, reading: Reading) -> Option<usize> {
    let tape_limit = reading.value(LONGEST_TAPE, Wrong::TapeOf4095, LONGEST_TAPE - 1);
    let tape_limit = reading.value(tape_limit, Wrong::TapeOf4097, LONGEST_TAPE + 1);
    let given = match reply {
        9 => call.tape.len() > tape_limit,
        10 => return bad_symbol(call, reading),
        11 => workspace_short(call, reading),
        12 => call.lengths.scratch < reading.value(call.tape.len() + 1, Wrong::ScratchOfN, call.tape.len()),
        13 => sides.left().is_none(),
        _ => sides.right().is_none(),
    };
    given.then_some(0)
}

/// "a tape symbol above 15: first such position"; above 31 by document 02, No. 6.
fn bad_symbol(call: &Call, reading: Reading) -> Option<usize> {
    let of_tape = of_tape(call, reading);
    let bad = |symbol: &u8| is_bad(*symbol, Named::OnTape, of_tape);
    if reading.is(Wrong::LastBadSymbol) {
        return call.tape.iter().rposition(bad);
    }
    let first = call.tape.iter().position(bad)?;
    Some(reading.value(first, Wrong::BadSymbolFromOne, first + 1))
}

/// "workspace too short, either piece". Document 02, No. 6: "11 at the new length".
fn workspace_short(call: &Call, reading: Reading) -> bool {
    let rows = call.lengths.rows < workspace::row_bytes(Counted::Asked(call.operation), reading);
    let sets = call.lengths.sets < workspace::SETS;
    rows && !reading.is(Wrong::SetsAlone) || sets && !reading.is(Wrong::RowsAlone)
}

fn leave_workspace(reply: u8, sides: &Sides, lent: &mut Lent, reading: Reading) {
    workspace::clear(lent, reading);
    if let (14, true, Some(left)) = (reply, reading.is(Wrong::FourteenKeepsLeft), sides.left()) {
        workspace::write_side(lent, 0, left, reading);
    }
}
