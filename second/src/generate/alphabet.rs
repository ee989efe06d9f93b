//! The few symbols that a book and its tape share, so that they meet often.

use crate::book::{HIGHEST_SYMBOL, SYMBOLS};
use crate::chance::Chance;
use crate::wrong_symbol::{HIGHEST_OLD, OLD_SYMBOLS};

/// The last old symbol, the first new one and the last of all: 15, 16 and 31.
pub const EDGES: [u8; 3] = [HIGHEST_OLD, HIGHEST_OLD + 1, HIGHEST_SYMBOL];

#[derive(Clone)]
pub struct Alphabet {
    lowest: u8,
    highest: u8,
    /// The highest symbol that may stand beside these few: 15 for an old book and an old tape.
    most: u8,
}

impl Alphabet {
    /// Two in five have old symbols alone.
    pub fn of(chance: &mut Chance) -> Alphabet {
        let symbols = chance.weighted(&[(2, OLD_SYMBOLS), (3, SYMBOLS)]);
        let size = chance.weighted(&[(1, 1), (5, 2), (4, 3), (2, 4), (1, symbols)]);
        let last = symbols - size;
        let anywhere = chance.below(last + 1);
        // From old symbols to new ones, or ending or beginning where these part.
        let across = OLD_SYMBOLS.saturating_sub(chance.below(size + 1)).min(last);
        let lowest = chance.weighted(&[(2, 0), (3, anywhere), (3, across), (2, last)]);
        Alphabet { lowest: lowest as u8, highest: (lowest + size - 1) as u8, most: symbols as u8 - 1 }
    }

    pub fn all() -> Alphabet {
        Alphabet { lowest: 0, highest: HIGHEST_SYMBOL, most: HIGHEST_SYMBOL }
    }

    pub fn symbol(&self, chance: &mut Chance) -> u8 {
        chance.between(self.lowest as usize, self.highest as usize) as u8
    }

    /// Any symbol beside these few, one at an edge more often.
    pub fn any(&self, chance: &mut Chance) -> u8 {
        let any = chance.below(self.most as usize + 1) as u8;
        let edge = chance.pick(&EDGES).min(self.most);
        chance.weighted(&[(3, any), (1, edge)])
    }

    /// The lowest and highest symbol of an arc.
    pub fn range(&self, chance: &mut Chance) -> (u8, u8) {
        let (one, other) = (self.symbol(chance), self.symbol(chance));
        let edge = chance.pick(&EDGES).min(self.most);
        chance.weighted(&[
            (12, (one, one)),
            (6, (one.min(other), one.max(other))),
            (2, (self.lowest, self.highest)),
            (2, (0, self.most)),
            // All old symbols; 15, 16 or 31 up to the last.
            (1, (0, HIGHEST_OLD)),
            (1, (edge, self.most)),
        ])
    }
}
