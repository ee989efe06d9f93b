//! Tapes at random, most of them led through the book's own parts so that candidates are met.

use super::alphabet::Alphabet;
use crate::book::HIGHEST_SYMBOL;
use crate::chance::Chance;
use crate::draft::{Arc, Part, Rule};
use crate::record::{ACCEPT, START};

pub fn tape(rules: &[Rule], alphabet: &Alphabet, chance: &mut Chance) -> Vec<u8> {
    let length = length(chance);
    let mut tape = Vec::new();
    let led = !rules.is_empty() && chance.below(4) < 3;
    while tape.len() < length {
        if led {
            let rule = chance.below(rules.len());
            let first = chance.weighted(&[(3, 0), (1, 1), (1, 2)]);
            rules[rule].parts[first..].iter().for_each(|part| walk(part, &mut tape, chance));
        }
        if !led || chance.one_in(3) {
            tape.push(if chance.one_in(15) { alphabet.any(chance) } else { alphabet.symbol(chance) });
        }
    }
    tape.truncate(length);
    tape
}

fn length(chance: &mut Chance) -> usize {
    let (shortest, longest) =
        chance.weighted(&[(5, (0, 0)), (10, (1, 4)), (30, (5, 12)), (12, (13, 30)), (3, (31, 80)), (1, (81, 300))]);
    chance.between(shortest, longest)
}

/// Appends a word along some run of the part.
fn walk(part: &Part, tape: &mut Vec<u8>, chance: &mut Chance) {
    let starts: Vec<usize> = (0..part.flags.len()).filter(|state| part.flags[*state] & START != 0).collect();
    if starts.is_empty() {
        return;
    }
    let mut state = chance.pick(&starts);
    for _ in 0..6 {
        let arcs: Vec<Arc> = part.arcs.iter().filter(|arc| arc.from == state).copied().collect();
        if arcs.is_empty() || part.flags[state] & ACCEPT != 0 && chance.one_in(2) {
            return;
        }
        let arc = chance.pick(&arcs);
        tape.push(chance.between(arc.lowest as usize, arc.highest as usize) as u8);
        state = arc.to;
    }
}

/// Puts one to three bad symbols into a tape.
pub fn spoil(tape: &mut [u8], chance: &mut Chance) {
    if tape.is_empty() {
        return;
    }
    for _ in 0..chance.between(1, 3) {
        let at = chance.below(tape.len());
        tape[at] = chance.weighted(&[(4, HIGHEST_SYMBOL + 1), (1, HIGHEST_SYMBOL + 2), (1, 128), (1, 255)]);
    }
}
