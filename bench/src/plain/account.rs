//! ACCOUNT: counted, then written, so that a short account is left as it was.

use super::{Ready, Refusal};
use crate::answer::LINE;

/// The number of candidates, or 15 with the words needed.
pub fn list(ready: &Ready, lines: &mut [u16]) -> Result<usize, Refusal> {
    let candidates = count(ready);
    if lines.len() < LINE * candidates {
        return Err((15, LINE * candidates));
    }
    write(ready, lines);
    Ok(candidates)
}

/// Visits each position with its left set, the tape's end too. `visit` stands here once, so that it becomes part of the loop: with a call of
/// its own for the end, ACCOUNT of the house book takes about a seventh longer.
fn positions(ready: &Ready, mut visit: impl FnMut(usize, u64)) {
    let mut number = 0;
    for i in 0..=ready.tape.len() {
        visit(i, ready.sets[number]);
        number = ready.tape.get(i).map_or(number, |symbol| ready.left_step(number, *symbol));
    }
}

fn count(ready: &Ready) -> usize {
    let mut count = 0;
    positions(ready, |i, left| {
        ready.walk(i, left, |_, set, right| {
            count += (0..ready.outline.rules).filter(|rule| ready.rule_hits(*rule, set, right)).count();
        })
    });
    count
}

/// The stretch that decides at a position: the taken one that begins there or lies over it.
#[derive(Clone, Copy, Default)]
struct Deciding {
    start: usize,
    end: usize,
    rule: usize,
}

impl Deciding {
    fn verdict(&self, start: usize, end: usize, rule: usize) -> u16 {
        if self.start < start {
            3
        } else if end < self.end {
            1
        } else if self.rule < rule {
            2
        } else {
            0
        }
    }
}

fn write(ready: &Ready, lines: &mut [u16]) {
    let mut deciding = Deciding::default();
    let mut places = lines.chunks_exact_mut(LINE);
    positions(ready, |i, left| {
        if i >= deciding.end {
            let (end, rule) = ready.taken_at(i, left).unwrap_or((i, 0));
            deciding = Deciding { start: i, end, rule };
        }
        ready.walk(i, left, |end, set, right| {
            for rule in (0..ready.outline.rules).filter(|rule| ready.rule_hits(*rule, set, right)) {
                let line = places.next().expect("counted before");
                let verdict = deciding.verdict(i, end, rule);
                line.copy_from_slice(&[
                    rule as u16,
                    i as u16,
                    end as u16,
                    verdict,
                    deciding.start as u16,
                    deciding.rule as u16,
                ]);
            }
        })
    });
}
