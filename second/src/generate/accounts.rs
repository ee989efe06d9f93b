//! Accounts for SHOW: lines valid and damaged, whole and cut, and line numbers near and far.

use crate::account::{Line, WORDS_A_LINE};
use crate::book::MOST_RULES;
use crate::call::{Call, Operation};
use crate::chance::Chance;

/// A word of the account can name this tape's end, and one past it.
const LONGEST_NAMED: usize = u16::MAX as usize - 1;

pub fn show_call(chance: &mut Chance) -> Call {
    let mut call = Call::new(Operation::Show);
    let length = chance.weighted(&[(1, 0), (1, 1), (20, 12), (2, 300), (1, LONGEST_NAMED)]);
    let length = if length == 12 { chance.between(2, 12) } else { length };
    // SHOW does not look at symbols: bad ones are handed back too.
    call.tape = (0..length).map(|_| chance.byte()).collect();
    let lines = chance.weighted(&[(1, 0), (4, 1), (4, 2), (4, 3), (2, 7), (1, 500)]);
    call.account = (0..lines).flat_map(|_| line(length, chance)).collect();
    match chance.below(4) {
        0 => call.account.truncate(call.account.len().saturating_sub(part_of_a_line(chance))),
        1 => call.account.extend((0..part_of_a_line(chance)).map(|_| length as u16)),
        _ => {}
    }
    call.line = line_number(lines as u32, chance);
    call
}

/// Fewer words than a line has.
fn part_of_a_line(chance: &mut Chance) -> usize {
    chance.between(1, WORDS_A_LINE - 1)
}

/// A line of rule, start, end, verdict, deciding start, deciding rule; SHOW needs only start and end.
fn line(length: usize, chance: &mut Chance) -> Line {
    let (one, other) = (chance.below(length + 1) as u16, chance.below(length + 1) as u16);
    let end = length as u16;
    let (start, end) = chance.weighted(&[
        (8, (one.min(other), one.max(other))),
        (4, (one, end)),
        (1, (0, end)),
        (5, (one, one)),
        (1, (end, end)),
        (1, (end + 1, end + 1)),
        (3, (one.max(other), one.min(other))),
        (1, (end + 1, end)),
        (2, (one, end + 1)),
        (1, (end, end + 1)),
        (1, (one, u16::MAX)),
        (1, (u16::MAX, u16::MAX)),
        (1, (u16::MAX, one)),
    ]);
    let mut rule = || chance.below(MOST_RULES) as u16;
    let (rule, deciding_rule) = (rule(), rule());
    [rule, start, end, chance.below(4) as u16, one, deciding_rule]
}

fn line_number(lines: u32, chance: &mut Chance) -> u32 {
    // Six times this is 2 more than 2^32: the first line whose words wrap around at 32 bits.
    const WRAPS: u32 = u32::MAX / WORDS_A_LINE as u32 + 1;
    // Six times this is three times 2^32: wrapped around, it is line 0, and with a line of the account added that line.
    const WRAPS_TO_FRONT: u32 = 1 << 31;
    const _: () = assert!(WRAPS_TO_FRONT.wrapping_mul(WORDS_A_LINE as u32) == 0);
    let inside = if lines == 0 { 0 } else { chance.below(lines as usize) as u32 };
    chance.weighted(&[
        (30, inside),
        (6, lines.saturating_sub(1)),
        (6, lines),
        (3, lines + 1),
        (2, WRAPS),
        (1, WRAPS - 1),
        (1, WRAPS + 1),
        (2, WRAPS_TO_FRONT),
        (4, WRAPS_TO_FRONT + inside),
        // The same counted in bytes, two a word.
        (2, WRAPS_TO_FRONT / 2 + inside),
        (2, u32::MAX),
        (1, u32::MAX - 1),
        (1, 1 << 16),
    ])
}
