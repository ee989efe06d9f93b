//! BUILD: the numbers of both sides' sets.

use super::outline::Outline;
use super::stepping::{left_next, right_last, right_prev};
use super::Refusal;
use crate::answer::{MOST_SETS, PAIRS, ROW_BYTES, SET_WORDS, SYMBOLS};

/// Both sides into the workspace; the counts, or 13 or 14 with both sides cleared.
pub fn number_both(
    book: &[u8],
    outline: &Outline,
    rows: &mut [u8],
    sets: &mut [u64],
) -> Result<(usize, usize), Refusal> {
    let (rows, sets) = (&mut rows[..ROW_BYTES], &mut sets[..SET_WORDS]);
    rows.fill(0);
    sets.fill(0);
    let (left_rows, right_rows) = rows.split_at_mut(PAIRS);
    let (left_sets, right_sets) = sets.split_at_mut(MOST_SETS);
    let left = number(outline.all_left_starts, |s, a| left_next(book, outline, s, a), left_rows, left_sets);
    let right =
        left.and_then(|_| number(right_last(outline), |s, a| right_prev(book, outline, s, a), right_rows, right_sets));
    match (left, right) {
        (Some(left), Some(right)) => Ok((left, right)),
        _ => {
            rows.fill(0);
            sets.fill(0);
            Err((if left.is_none() { 13 } else { 14 }, 0))
        }
    }
}

/// One side, into rows and sets that are all 0; nothing where there are too many sets.
fn number(first: u64, next: impl Fn(u64, u8) -> u64, rows: &mut [u8], sets: &mut [u64]) -> Option<usize> {
    sets[0] = first;
    let mut count = 1;
    let mut k = 0;
    while k < count {
        let set = sets[k];
        for (symbol, entry) in rows[SYMBOLS * k..][..SYMBOLS].iter_mut().enumerate() {
            let to = next(set, symbol as u8);
            let number = sets[..count].iter().position(|met| *met == to).unwrap_or(count);
            if number == count {
                if count == MOST_SETS {
                    return None;
                }
                sets[count] = to;
                count += 1;
            }
            *entry = number as u8;
        }
        k += 1;
    }
    Some(count)
}
