//! The tapes that are measured.

use crate::alphabet::Alphabet;
use crate::answer::TAPE;
use crate::chance::Chance;

/// A lane as its pad writes it: water between touches, and at each touch a press, holds and a release, with a push or
/// two quiets after it, a ripple before it, or neither.
pub fn pool(chance: &mut Chance) -> Vec<u8> {
    let mut tape = Vec::new();
    while tape.len() < TAPE {
        let water = chance.between(8, 60);
        tape.extend((0..water).map(|_| u8::from(chance.below(4) == 0)));
        match chance.below(8) {
            0 => tape.extend([1, 2, 4]),
            1 => tape.extend([2, 3, 3, 4, 1]),
            2 => touch(chance, &[0, 0], &mut tape),
            _ => touch(chance, &[5], &mut tape),
        }
    }
    tape.truncate(TAPE);
    tape
}

fn touch(chance: &mut Chance, after: &[u8], tape: &mut Vec<u8>) {
    let holds = chance.below(6);
    tape.push(2);
    tape.extend(std::iter::repeat_n(3, holds));
    tape.push(4);
    tape.extend(after);
}

/// Every symbol as likely as any other.
pub fn random(length: usize, alphabet: Alphabet, chance: &mut Chance) -> Vec<u8> {
    (0..length).map(|_| alphabet.any(chance)).collect()
}

/// One turn: a press, holds and a release, before a push.
pub fn one_stretch() -> Vec<u8> {
    let mut tape = vec![3; TAPE];
    tape[0] = 2;
    tape[TAPE - 2] = 4;
    tape[TAPE - 1] = 5;
    tape
}

/// Presses and holds without a release.
pub fn no_candidate(chance: &mut Chance) -> Vec<u8> {
    (0..TAPE).map(|_| [0, 0, 1, 2, 3, 5][chance.below(6)]).collect()
}
