//! Every book and the tapes that it is tried on.

use crate::alphabet::Alphabet;
use crate::answer::TAPE;
use crate::chance::Chance;
use crate::{books, tapes};

pub const SEED: u64 = 2026;
const POOL_TAPES: usize = 8;

pub struct Cases {
    pub house: Vec<u8>,
    pub turn: Vec<u8>,
    pub lap: Vec<u8>,
    pub dense: Vec<u8>,
    pub full: Vec<u8>,
    pub largest: Vec<u8>,
    pub every: Vec<u8>,
    pub most: Vec<u8>,
    pub places: Vec<u8>,
    pub alike: Vec<u8>,
    pub lengths: Vec<u8>,
    pub inserted: Vec<u8>,
    pub pool: Vec<Vec<u8>>,
    pub random: Vec<Vec<u8>>,
    pub one_stretch: Vec<Vec<u8>>,
    pub no_candidate: Vec<Vec<u8>>,
}

impl Cases {
    pub fn new(alphabet: Alphabet, chance: &mut Chance) -> Cases {
        Cases {
            house: books::house(),
            turn: books::turn(),
            lap: books::lap(),
            dense: books::dense(alphabet, chance),
            full: books::full_sets(alphabet),
            largest: books::largest(alphabet),
            every: books::every_stretch(alphabet),
            most: books::every_candidate(alphabet),
            places: books::every_place(),
            alike: books::no_two_alike(alphabet, chance),
            lengths: books::word_lengths(alphabet),
            inserted: books::inserted_lengths(),
            pool: (0..POOL_TAPES).map(|_| tapes::pool(chance)).collect(),
            random: (0..POOL_TAPES).map(|_| tapes::random(TAPE, alphabet, chance)).collect(),
            one_stretch: vec![tapes::one_stretch()],
            no_candidate: (0..POOL_TAPES).map(|_| tapes::no_candidate(chance)).collect(),
        }
    }
}
