//! Calls of IMPORT: texts of all sizes with and without faults, parts and first numbers inside and outside.

use super::alphabet::Alphabet;
use super::buffers;
use super::spoilt_texts::spoil;
use super::texts::{self, Size};
use crate::book::{MOST_ARCS, MOST_STATES};
use crate::call::{Call, Operation, LONGEST_BOOK};
use crate::chance::Chance;
use crate::import::Import;
use crate::reading::Reading;
use crate::record::{FOCUS, LEFT, RIGHT};

pub fn import_call(chance: &mut Chance) -> Call {
    let alphabet = Alphabet::of(chance);
    let size = size(chance);
    let said = texts::acceptor(size, &alphabet, chance);
    let mut lines = texts::written(&said, chance);
    if chance.below(10) < 6 {
        spoil(&mut lines, chance);
    }
    let first = first(size.states, chance);
    call_with(lines.concat(), first, chance)
}

/// Mostly few states; now and then about as many states or arcs as there may be.
fn size(chance: &mut Chance) -> Size {
    let small = Size::small(chance);
    let states = chance.between(7, 40);
    let many = Size { states, arcs: chance.between(states / 2, 2 * states) };
    let arcs = chance.between(0, 100);
    let about_states = Size { states: chance.between(MOST_STATES - 3, MOST_STATES + 2), arcs };
    let about_arcs = Size { states: chance.between(1, 30), arcs: chance.between(MOST_ARCS - 1, MOST_ARCS + 2) };
    let none = Size { states: 0, arcs: 0 };
    chance.weighted(&[(3, none), (40, small), (6, many), (4, about_states), (1, about_arcs)])
}

/// A first number: often the last with which every state has its number, or the next; some so high that the numbers
/// wrap around at 256.
fn first(states: usize, chance: &mut Chance) -> u8 {
    let states = states.max(1);
    let last = MOST_STATES.saturating_sub(states) as u8;
    let inside = chance.between(0, last as usize) as u8;
    let wraps = (256 - chance.between(1, states)) as u8;
    let any = chance.byte();
    chance.weighted(&[(8, 0), (12, inside), (6, last), (3, last + 1), (1, 63), (1, 64), (2, wraps), (3, any), (1, 255)])
}

/// A call with this text, any part, and about as much room as it needs.
fn call_with(text: Vec<u8>, first: u8, chance: &mut Chance) -> Call {
    let mut call = Call::new(Operation::Import);
    call.fill = chance.byte();
    call.book = text;
    let any = chance.byte();
    let part = chance.weighted(&[(14, LEFT), (14, FOCUS), (14, RIGHT), (2, 3), (1, any), (1, 255)]);
    // What stands above the first number is not looked at.
    let above = if chance.one_in(30) { chance.byte() } else { 0 };
    call.line = u32::from_le_bytes([part, first, above, above]);
    call.lengths.out = buffers::around(needed(&call), chance);
    call.within_limits()
}

/// The bytes that the lines without fault need.
pub fn needed(call: &Call) -> usize {
    Import::of(call, Reading::TRUE).needed()
}

/// A state number of 63, or one of 64, with as many other states as there may be or fewer.
pub fn last_state(chance: &mut Chance) -> Call {
    let fewer = chance.between(1, MOST_STATES);
    let states = chance.weighted(&[(3, MOST_STATES), (2, MOST_STATES + 1), (3, fewer)]);
    let text = texts::text(Size { states, arcs: chance.below(120) }, &Alphabet::of(chance), chance);
    let first = MOST_STATES.saturating_sub(states) + chance.below(2);
    call_with(text, first as u8, chance)
}

/// 512 arcs, or one more, and now and then a fault in some line.
pub fn last_arc(chance: &mut Chance) -> Call {
    let size = Size { states: chance.between(1, MOST_STATES), arcs: MOST_ARCS + chance.below(2) };
    let said = texts::acceptor(size, &Alphabet::of(chance), chance);
    let mut lines = texts::written(&said, chance);
    if chance.one_in(4) {
        spoil(&mut lines, chance);
    }
    let first = chance.below(MOST_STATES + 1 - size.states) as u8;
    call_with(lines.concat(), first, chance)
}

/// As long as can be sent: a number with zeros in front, with a digit before them now and then; many lines; or no
/// newline at all.
pub fn longest_text(chance: &mut Chance) -> Call {
    let (before, line): (&[u8], &[u8]) =
        chance.pick(&[(b"", b"7\n"), (b"1", b"7\n"), (b"5\t6\t", b"32\n"), (b"5\t6\t1", b"32\n"), (b"", b"1")]);
    let zeros = b"0".repeat(LONGEST_BOOK - before.len() - line.len());
    let text = match chance.below(4) {
        0 => b"1\t2\t3\n".iter().copied().cycle().take(LONGEST_BOOK).collect(),
        _ => [before, &zeros, line].concat(),
    };
    call_with(text, chance.below(3) as u8, chance)
}
