//! What one reading of an accepted book gives for the whole call.

use super::check::record_size;
use crate::answer::{RULES, STATES};

pub struct Outline {
    pub rules: usize,
    /// The offset of each state's record.
    pub places: [u16; STATES],
    /// The offset of each rule's record, where its word stands.
    pub words: [u16; RULES],
    pub longest_word: usize,
    /// Whether some focus holds the empty word: a state of it both starts and accepts.
    pub inserts: bool,
    /// States of each rule, by part and flag.
    pub left_accepts: [u64; RULES],
    pub focus_starts: [u64; RULES],
    pub focus_accepts: [u64; RULES],
    pub right_starts: [u64; RULES],
    /// The same of all rules.
    pub all_left_starts: u64,
    pub all_right_accepts: u64,
    pub all_focus_starts: u64,
    pub all_focus_accepts: u64,
}

const START: u8 = 1;
const ACCEPT: u8 = 2;

impl Outline {
    pub fn of(book: &[u8]) -> Outline {
        let mut outline = Outline::empty();
        let mut states = 0;
        let mut at = 0;
        loop {
            match book[at] {
                1 => outline.rule(book[at + 1] as usize, at),
                2 => {
                    outline.places[states] = at as u16;
                    outline.state(1 << states, book[at + 1], book[at + 2]);
                    states += 1;
                }
                3 => {}
                _ => return outline,
            }
            at += record_size(book[at]);
        }
    }

    /// The length of the longest output that a tape of `n` symbols can have.
    pub fn longest_output(&self, n: usize) -> usize {
        if self.inserts {
            n * (self.longest_word + 1) + self.longest_word
        } else {
            n * self.longest_word.max(1)
        }
    }

    fn empty() -> Outline {
        Outline {
            rules: 0,
            places: [0; STATES],
            words: [0; RULES],
            longest_word: 0,
            inserts: false,
            left_accepts: [0; RULES],
            focus_starts: [0; RULES],
            focus_accepts: [0; RULES],
            right_starts: [0; RULES],
            all_left_starts: 0,
            all_right_accepts: 0,
            all_focus_starts: 0,
            all_focus_accepts: 0,
        }
    }

    fn rule(&mut self, length: usize, at: usize) {
        self.words[self.rules] = at as u16;
        self.longest_word = self.longest_word.max(length);
        self.rules += 1;
    }

    fn state(&mut self, bit: u64, part: u8, flags: u8) {
        let rule = self.rules - 1;
        let start = if flags & START != 0 { bit } else { 0 };
        let accept = if flags & ACCEPT != 0 { bit } else { 0 };
        match part {
            0 => {
                self.all_left_starts |= start;
                self.left_accepts[rule] |= accept;
            }
            1 => {
                self.focus_starts[rule] |= start;
                self.focus_accepts[rule] |= accept;
                self.all_focus_starts |= start;
                self.all_focus_accepts |= accept;
                self.inserts |= start & accept != 0;
            }
            _ => {
                self.right_starts[rule] |= start;
                self.all_right_accepts |= accept;
            }
        }
    }
}
