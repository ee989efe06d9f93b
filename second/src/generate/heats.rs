//! Heats: tapes one after another in a common buffer, and lanes that keep to them, overlap, or leave the buffer.

use super::alphabet::Alphabet;
use super::tapes;
use crate::admission::LONGEST_TAPE;
use crate::call::{Lane, MOST_LANES_SENT};
use crate::chance::Chance;
use crate::draft::Rule;
use crate::heat::MOST_LANES;

/// How many lanes a heat has, none and too many among them.
pub fn count(chance: &mut Chance) -> usize {
    let several = chance.between(5, MOST_LANES - 1);
    let too_many = chance.between(MOST_LANES + 1, MOST_LANES_SENT);
    chance.weighted(&[(3, 0), (4, 1), (8, 2), (8, 3), (5, 4), (4, several), (4, MOST_LANES), (3, too_many)])
}

/// A common buffer with a tape for each lane, and the lanes.
pub fn heat(count: usize, rules: &[Rule], alphabet: &Alphabet, chance: &mut Chance) -> (Vec<u8>, Vec<Lane>) {
    let mut buffer = Vec::new();
    let mut own = Vec::new();
    for _ in 0..count {
        if chance.one_in(6) {
            buffer.push(alphabet.symbol(chance));
        }
        let tape = tape(rules, alphabet, chance);
        own.push(Lane { start: buffer.len() as u64, length: tape.len() as u64 });
        buffer.extend(tape);
    }
    let lanes = own.into_iter().map(|own| lane(own, buffer.len() as u64, chance)).collect();
    (buffer, lanes)
}

fn tape(rules: &[Rule], alphabet: &Alphabet, chance: &mut Chance) -> Vec<u8> {
    let mut tape = tapes::tape(rules, alphabet, chance);
    if chance.one_in(80) {
        let length = chance.weighted(&[(1, LONGEST_TAPE), (4, LONGEST_TAPE + 1), (1, LONGEST_TAPE + 300)]);
        tape.resize(length, alphabet.symbol(chance));
    }
    // So that 9 often meets a bad symbol.
    if chance.one_in(if tape.len() < LONGEST_TAPE { 10 } else { 2 }) {
        tapes::spoil(&mut tape, chance);
    }
    tape
}

/// Lanes over a given common buffer: pieces of it between cuts, or all of it.
pub fn over(buffer: usize, chance: &mut Chance) -> Vec<Lane> {
    let count = count(chance);
    let mut cuts: Vec<u64> = (0..=count).map(|_| chance.below(buffer + 1) as u64).collect();
    cuts.sort_unstable();
    let mut own: Vec<Lane> = cuts.windows(2).map(|cut| Lane { start: cut[0], length: cut[1] - cut[0] }).collect();
    if let (Some(first), true) = (own.first_mut(), chance.one_in(2)) {
        *first = Lane { start: 0, length: buffer as u64 };
    }
    own.into_iter().map(|own| lane(own, buffer as u64, chance)).collect()
}

/// Mostly the lane's own tape; else a stretch that overlaps others, stands at the end, or leaves the buffer.
fn lane(own: Lane, buffer: u64, chance: &mut Chance) -> Lane {
    let Lane { start, length } = own;
    let inside = chance.below(buffer as usize + 1) as u64;
    let rest = buffer - inside;
    let short = chance.below(rest.min(20) as usize + 1) as u64;
    // With this length the sum is 2^64 and something below the start.
    let wrapping = (chance.below(inside.max(1) as usize) as u64).wrapping_sub(inside);
    let (start, length) = chance.weighted(&[
        (120, (start, length)),
        (16, (inside, short)),
        (2, (inside, rest.min(40))),
        (3, (inside, 0)),
        (6, (buffer, 0)),
        (6, (inside, rest + 1)),
        (2, (buffer, 1)),
        (3, (buffer + 1, 0)),
        (1, (buffer + 1, length)),
        (3, (inside, wrapping)),
        (1, (u64::MAX, 0)),
        (2, (u64::MAX, 1)),
        (2, (u64::MAX, 1 + short)),
        (1, (u64::MAX, u64::MAX)),
        (1, (inside, u64::MAX)),
        (1, (inside, u64::MAX - inside)),
        (1, (1 << 63, 1 << 63)),
        (2, (start, (1 << 32) + length)),
        (2, ((1 << 32) + start, length)),
    ]);
    Lane { start, length }
}
