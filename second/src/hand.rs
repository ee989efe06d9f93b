//! The books worked by hand beside the house book: those of document 01, "Tapes worked by hand", and three of our own for
//! document 02, No. 4, No. 5 and No. 6.

use crate::draft::{self, Part, Rule};
use crate::record::{ACCEPT, START};

/// "Letters are numbered freely below 16."
pub mod letters {
    pub const SMALL_A: u8 = 0;
    pub const SMALL_B: u8 = 1;
    pub const LARGE_A: u8 = 2;
    pub const X: u8 = 3;
    pub const Y: u8 = 4;
    pub const Z: u8 = 5;
}
use letters::{LARGE_A, SMALL_A, SMALL_B, X, Y, Z};

/// A tape of letters.
pub fn tape(text: &str) -> Vec<u8> {
    let number = |letter| match letter {
        'a' => SMALL_A,
        'b' => SMALL_B,
        'A' => LARGE_A,
        'x' => X,
        'y' => Y,
        'z' => Z,
        other => panic!("no letter {other}"),
    };
    text.chars().map(number).collect()
}

/// "P (001, example 3.3): left a, right aa or b; rule 0 two or more a's to A, rule 1 ab to nothing."
pub fn p() -> Vec<u8> {
    let left = Part::word(&[SMALL_A]);
    let right = Part::word(&[SMALL_A, SMALL_A]).or(&Part::word(&[SMALL_B]));
    let two_or_more = Part::word(&[SMALL_A, SMALL_A]).with_arc(2, SMALL_A, SMALL_A, 2);
    draft::book(&[
        Rule::new(left.clone(), two_or_more, right.clone(), &[LARGE_A]),
        Rule::new(left, Part::word(&[SMALL_A, SMALL_B]), right, &[]),
    ])
}

/// "Q (004): one or more a's to A, left b, right a."
pub fn q() -> Vec<u8> {
    let one_or_more = Part::word(&[SMALL_A]).with_arc(1, SMALL_A, SMALL_A, 1);
    draft::book(&[Rule::new(Part::word(&[SMALL_B]), one_or_more, Part::word(&[SMALL_A]), &[LARGE_A])])
}

/// "S (004): xy or yz to nothing, left x, right z."
pub fn s() -> Vec<u8> {
    let focus = Part::word(&[X, Y]).or(&Part::word(&[Y, Z]));
    draft::book(&[Rule::new(Part::word(&[X]), focus, Part::word(&[Z]), &[])])
}

/// "Some pools replace a contact by contact and release": rule 0 press, any number of holds and release to press and
/// release; rule 1 two pushes to 6, 7 and 6.
pub fn contacts() -> Vec<u8> {
    let contact = Part::word(&[2, 4]).with_arc(1, 3, 3, 1);
    draft::book(&[
        Rule::new(Part::any(), contact, Part::any(), &[2, 4]),
        Rule::new(Part::any(), Part::word(&[5, 5]), Part::any(), &[6, 7, 6]),
    ])
}

/// "Federations want a lap mark inserted between a turn and the next event": rule 0 the mark, 11 and 12, after a turn;
/// rule 1 press, any number of holds and release to turn; rule 2 inserts 6 after each of these three; rule 3 inserts 7
/// before a finish.
pub fn laps() -> Vec<u8> {
    let nothing = Part::word(&[]);
    let touched = Part { flags: vec![START, ACCEPT], arcs: Vec::new() }.with_arc(0, 2, 4, 1);
    draft::book(&[
        Rule::new(Part::word(&[8]), nothing.clone(), Part::any(), &[11, 12]),
        Rule::new(Part::any(), Part::word(&[2, 4]).with_arc(1, 3, 3, 1), Part::any(), &[8]),
        Rule::new(touched, nothing.clone(), Part::any(), &[6]),
        Rule::new(Part::any(), nothing, Part::word(&[9]), &[7]),
    ])
}

/// "The backstroke ledge sends events of its own", 16 to 31: rule 0 one or more of them before quiet to 31; rule 1 the
/// first of them after 15 to 16 and 15.
pub fn ledge() -> Vec<u8> {
    let events = Part { flags: vec![START, ACCEPT], arcs: Vec::new() }.with_arc(0, 16, 31, 1).with_arc(1, 16, 31, 1);
    draft::book(&[
        Rule::new(Part::any(), events, Part::word(&[0]), &[31]),
        Rule::new(Part::word(&[15]), Part::word(&[16]), Part::any(), &[16, 15]),
    ])
}
