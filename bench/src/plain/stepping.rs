//! The step of a set, read from the book's bytes.

use super::outline::Outline;

/// Where an arc's record names its two states.
const FROM: usize = 1;
const TO: usize = 4;

/// The step of a set, along the arcs or against them. The records of a rule are read once for all its states in the set, from the lowest of
/// these on: an arc stands after both its states.
fn step<const SOURCE: usize, const TARGET: usize>(book: &[u8], outline: &Outline, set: u64, symbol: u8) -> u64 {
    let mut left = set;
    let mut out = 0;
    while left != 0 {
        let mut last = left.trailing_zeros();
        let mut records = &book[outline.places[last as usize] as usize + 3..];
        loop {
            match *records {
                [2, _, _, ref rest @ ..] => {
                    last += 1;
                    records = rest;
                }
                [3, from, low, high, to, ref rest @ ..] => {
                    let (source, target) = if SOURCE == FROM { (from, to) } else { (to, from) };
                    if set >> source & 1 != 0 && low <= symbol && symbol <= high {
                        out |= 1 << target;
                    }
                    records = rest;
                }
                _ => break,
            }
        }
        left &= !1u64 << last;
    }
    out
}

/// Of each rule whose test the set meets, what it gives.
fn gather(outline: &Outline, set: u64) -> u64 {
    let rules = outline.right_starts.iter().zip(&outline.focus_accepts).take(outline.rules);
    rules.fold(0, |out, (starts, accepts)| if set & starts != 0 { out | accepts } else { out })
}

pub fn left_next(book: &[u8], outline: &Outline, set: u64, symbol: u8) -> u64 {
    outline.all_left_starts | step::<FROM, TO>(book, outline, set, symbol)
}

pub fn right_last(outline: &Outline) -> u64 {
    outline.all_right_accepts | gather(outline, outline.all_right_accepts)
}

pub fn right_prev(book: &[u8], outline: &Outline, set: u64, symbol: u8) -> u64 {
    let near = outline.all_right_accepts | step::<TO, FROM>(book, outline, set, symbol);
    near | gather(outline, near)
}

/// The focus states one symbol on, those that the right set there holds.
pub fn focus_next(book: &[u8], outline: &Outline, set: u64, symbol: u8, right: u64) -> u64 {
    step::<FROM, TO>(book, outline, set, symbol) & right
}
