//! Parts at random: chains, loops, and states joined anyhow, with several starts and accepts.

use super::alphabet::Alphabet;
use crate::chance::Chance;
use crate::draft::Part;
use crate::record::{ACCEPT, BOTH, NEITHER, START};

/// A left or right part.
pub fn context(alphabet: &Alphabet, chance: &mut Chance) -> Part {
    match chance.weighted(&[(10, 0), (5, 1), (4, 2), (6, 3), (1, 4)]) {
        0 => Part::any(),
        1 => chain(alphabet, 0, 3, chance),
        2 => looped(chain(alphabet, 1, 2, chance), alphabet, chance),
        3 => joined(alphabet, &[NEITHER, START, ACCEPT, BOTH], chance),
        _ => Part::none(),
    }
}

/// A focus part without a state with flags 3, so that it does not accept the empty word.
pub fn focus(alphabet: &Alphabet, chance: &mut Chance) -> Part {
    match chance.weighted(&[(10, 0), (12, 1), (16, 2), (8, 3), (1, 4)]) {
        0 => chain(alphabet, 1, 4, chance),
        1 => looped(chain(alphabet, 1, 3, chance), alphabet, chance),
        2 => joined(alphabet, &[NEITHER, START, ACCEPT], chance),
        3 => chain(alphabet, 1, 2, chance).or(&chain(alphabet, 1, 3, chance)),
        _ => Part::none(),
    }
}

/// A focus part that accepts the empty word, alone or beside others. Document 02, No. 5: "The focus may now be empty".
pub fn empty_focus(alphabet: &Alphabet, chance: &mut Chance) -> Part {
    match chance.weighted(&[(12, 0), (6, 1), (6, 2), (6, 3)]) {
        0 => Part::word(&[]),
        1 => looped(Part::word(&[]), alphabet, chance),
        2 => focus(alphabet, chance).or(&Part::word(&[])),
        _ => {
            let mut part = joined(alphabet, &[NEITHER, START, ACCEPT, BOTH], chance);
            let both = chance.below(part.flags.len());
            part.flags[both] = BOTH;
            part
        }
    }
}

fn chain(alphabet: &Alphabet, shortest: usize, longest: usize, chance: &mut Chance) -> Part {
    let length = chance.between(shortest, longest);
    let mut part = Part { flags: vec![NEITHER; length + 1], arcs: Vec::new() };
    part.flags[0] |= START;
    part.flags[length] |= ACCEPT;
    for at in 0..length {
        let (lowest, highest) = alphabet.range(chance);
        part.arc(at, lowest, highest, at + 1);
    }
    part
}

fn looped(mut part: Part, alphabet: &Alphabet, chance: &mut Chance) -> Part {
    for _ in 0..chance.between(1, 2) {
        let (lowest, highest) = alphabet.range(chance);
        let at = chance.below(part.flags.len());
        part.arc(at, lowest, highest, at);
    }
    part
}

/// A few states with any flags and any arcs. More often than not the first is a start, the last an accept, and a
/// way leads from the one to the other.
fn joined(alphabet: &Alphabet, flags: &[u8], chance: &mut Chance) -> Part {
    let states = if chance.one_in(60) { chance.between(6, 14) } else { chance.between(1, 5) };
    let mut part = Part { flags: (0..states).map(|_| chance.pick(flags)).collect(), arcs: Vec::new() };
    if states > 1 && !chance.one_in(4) {
        part.flags[0] = START;
        part.flags[states - 1] = ACCEPT;
        part.arcs = chain(alphabet, states - 1, states - 1, chance).arcs;
    }
    for _ in 0..chance.below(2 * states + 1) {
        let (lowest, highest) = alphabet.range(chance);
        let (from, to) = (chance.below(states), chance.below(states));
        part.arc(from, lowest, highest, to);
    }
    part
}

/// The same part going one arc further: a shared prefix.
pub fn lengthened(mut part: Part, alphabet: &Alphabet, chance: &mut Chance) -> Part {
    if part.flags.is_empty() {
        return part;
    }
    let (lowest, highest) = alphabet.range(chance);
    let from = chance.below(part.flags.len());
    part.flags.push(ACCEPT);
    let to = part.flags.len() - 1;
    part.arc(from, lowest, highest, to);
    part
}
