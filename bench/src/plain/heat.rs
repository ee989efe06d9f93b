//! HEAT: the book is read and built once, and then each lane is walked as REWRITE walks a tape.

use super::{backward, make_sets, passes, refusals, rewritten, Ready, Refusal};
use crate::answer::{Heated, Lane};
use crate::heats::in_turn;
use crate::lent::Lent;

pub fn heat(book: &[u8], tapes: &[u8], lanes: &mut [Lane], lent: &mut Lent) -> Heated {
    let Lent { rows, sets, scratch, out, origins, .. } = lent;
    match refusals::of_lanes(lanes).and_then(|()| make_sets(book, rows, sets)) {
        Err((reply, place)) => Heated { reply, place },
        Ok((outline, ..)) => {
            in_turn(tapes, lanes, |tape, used| {
                rewritten(open_tape(tape, rows, scratch).and_then(|()| {
                    let ready = Ready { book, outline: &outline, tape, rows, sets, scratch };
                    passes::finish(&ready, &mut out[used..], &mut origins[used..])
                }))
            });
            Heated { reply: 0, place: 0 }
        }
    }
}

/// One lane's tape, scratch, backward pass.
fn open_tape(tape: &[u8], rows: &[u8], scratch: &mut [u8]) -> Result<(), Refusal> {
    refusals::of_tape(tape)?;
    refusals::of_scratch(tape, scratch)?;
    backward(tape, rows, scratch);
    Ok(())
}
