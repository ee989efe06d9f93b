//! Books and tapes as a script of commands that foma and hfst-xfst share.

use super::rules::{written, Manner, PeerRule};
use crate::chance::Chance;
use crate::draft;

/// The line printed before each tape's results.
pub const MARK: &str = "next\n";

/// One letter more than the rules know.
const LETTERS_OF_TAPES: [u8; 10] = [0, 0, 0, 1, 1, 1, 2, 2, 2, 3];

/// A book that a peer can read, and tapes for it.
pub struct Case {
    pub rules: Vec<PeerRule>,
    pub tapes: Vec<Vec<u8>>,
}

impl Case {
    /// Tapes have at least one symbol: a script cannot name the empty one.
    pub fn of(rules: usize, chance: &mut Chance) -> Case {
        let rules = (0..rules).map(|_| PeerRule::of(chance)).collect();
        let mut tape = || (0..chance.between(1, 12)).map(|_| chance.pick(&LETTERS_OF_TAPES)).collect();
        let tapes = (0..8).map(|_| tape()).collect();
        Case { rules, tapes }
    }

    pub fn book(&self) -> Vec<u8> {
        draft::book(&self.rules.iter().map(PeerRule::rule).collect::<Vec<_>>())
    }

    /// The rules in parallel.
    pub fn expression(&self, manner: &Manner) -> String {
        self.rules.iter().map(|rule| rule.written(manner)).collect::<Vec<_>>().join(" ,, ")
    }

    pub fn script(&self, manner: &Manner) -> String {
        let mut script = format!("regex {} ;\n", self.expression(manner));
        for tape in &self.tapes {
            let word: String = tape.iter().map(|symbol| written(*symbol)).collect();
            script += &format!("echo {MARK}apply down {word}\n");
        }
        script + "clear stack\n"
    }
}
