//! The refusals before anything is built or walked, each where it stands alone.

use super::{check, Refusal};
use crate::answer::{Lane, LANES, ROW_BYTES, SET_WORDS, SYMBOLS, TAPE};

pub fn of_book(book: &[u8]) -> Result<(), Refusal> {
    let checked = check(book);
    refused_if(checked.reply != 0, (checked.reply, checked.place))
}

pub fn of_tape(tape: &[u8]) -> Result<(), Refusal> {
    refused_if(tape.len() > TAPE, (9, 0))?;
    let bad = tape.iter().position(|symbol| *symbol as usize >= SYMBOLS);
    bad.map_or(Ok(()), |bad| Err((10, bad)))
}

pub fn of_workspace(rows: &[u8], sets: &[u64]) -> Result<(), Refusal> {
    refused_if(rows.len() < ROW_BYTES || sets.len() < SET_WORDS, (11, 0))
}

pub fn of_scratch(tape: &[u8], scratch: &[u8]) -> Result<(), Refusal> {
    refused_if(scratch.len() <= tape.len(), (12, 0))
}

pub fn of_lanes(lanes: &[Lane]) -> Result<(), Refusal> {
    refused_if(lanes.len() > LANES, (16, 0))
}

fn refused_if(case: bool, refusal: Refusal) -> Result<(), Refusal> {
    if case {
        Err(refusal)
    } else {
        Ok(())
    }
}
