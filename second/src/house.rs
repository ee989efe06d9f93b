//! The house book, from the table of document 01, "House book and program".

use crate::draft::{self, Part, Rule};

const QUIET: u8 = 0;
const RIPPLE: u8 = 1;
const PRESS: u8 = 2;
const HOLD: u8 = 3;
const RELEASE: u8 = 4;
const PUSH: u8 = 5;
const TURN: u8 = 8;
const FINISH: u8 = 9;
const NOISE: u8 = 10;

/// | Rule | Left | Focus | Right | Word |
pub fn rules() -> Vec<Rule> {
    vec![
        Rule::new(Part::word(&[RIPPLE]), Part::word(&[PRESS, RELEASE]), Part::any(), &[NOISE]),
        Rule::new(Part::any(), touch(), Part::word(&[PUSH]), &[TURN]),
        Rule::new(Part::any(), touch(), Part::word(&[QUIET, QUIET]), &[FINISH]),
    ]
}

/// "2, any number of 3, 4"
fn touch() -> Part {
    Part::word(&[PRESS, RELEASE]).with_arc(1, HOLD, HOLD, 1)
}

pub fn book() -> Vec<u8> {
    draft::book(&rules())
}
