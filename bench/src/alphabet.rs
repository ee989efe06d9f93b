//! The symbols that arcs are open to and random tapes hold.

use crate::answer::SYMBOLS;
use crate::chance::Chance;

/// Symbols 0 up to and not including this number, which is a multiple of 8.
#[derive(Clone, Copy)]
pub struct Alphabet(pub u8);

impl Alphabet {
    /// All that there are; an earlier library may have had fewer.
    pub const WHOLE: Alphabet = Alphabet(SYMBOLS as u8);

    pub fn last(self) -> u8 {
        self.0 - 1
    }

    /// Where its eighth of this number begins, counted from 0.
    pub fn eighth(self, number: u8) -> u8 {
        self.0 / 8 * number
    }

    pub fn lower_half(self) -> Alphabet {
        Alphabet(self.eighth(4))
    }

    pub fn any(self, chance: &mut Chance) -> u8 {
        chance.below(self.0 as usize) as u8
    }
}
