//! The books that are measured or compared, made record by record.

use crate::alphabet::Alphabet;
use crate::answer::{ARCS, WORD};
use crate::chance::Chance;

const LEFT: u8 = 0;
const FOCUS: u8 = 1;
const RIGHT: u8 = 2;

const NEITHER: u8 = 0;
const START: u8 = 1;
const ACCEPT: u8 = 2;
const BOTH: u8 = 3;

/// The mark that `lap` puts in.
const LAP: u8 = 11;

#[derive(Default)]
struct Draft {
    bytes: Vec<u8>,
    states: u8,
    arcs: usize,
}

impl Draft {
    fn rule(&mut self, word: &[u8]) {
        self.bytes.extend([1, word.len() as u8]);
        self.bytes.extend(word);
        self.bytes.extend(std::iter::repeat_n(0, WORD - word.len()));
    }

    /// A rule without conditions: the focus states before its first symbol, with those flags, and after it, which still need their arcs.
    fn free_rule(&mut self, word: &[u8], first: u8) -> (u8, u8) {
        self.rule(word);
        self.any(LEFT);
        let focus = (self.state(FOCUS, first), self.state(FOCUS, ACCEPT));
        self.any(RIGHT);
        focus
    }

    /// The number of the new state.
    fn state(&mut self, part: u8, flags: u8) -> u8 {
        self.bytes.extend([2, part, flags]);
        self.states += 1;
        self.states - 1
    }

    /// "Any" is one state with flags 3.
    fn any(&mut self, part: u8) {
        self.state(part, BOTH);
    }

    fn arc(&mut self, from: u8, low: u8, high: u8, to: u8) {
        self.bytes.extend([3, from, low, high, to]);
        self.arcs += 1;
    }

    fn end(mut self) -> Vec<u8> {
        self.bytes.push(4);
        self.bytes
    }

    /// Press, any number of holds, release.
    fn touch(&mut self, part: u8) -> impl FnOnce(&mut Draft) {
        let (start, held, released) = (self.state(part, START), self.state(part, NEITHER), self.state(part, ACCEPT));
        move |draft| {
            draft.arc(start, 2, 2, held);
            draft.arc(held, 3, 3, held);
            draft.arc(held, 4, 4, released);
        }
    }

    /// Before a push.
    fn push(&mut self) -> impl FnOnce(&mut Draft) {
        let (before, pushed) = (self.state(RIGHT, START), self.state(RIGHT, ACCEPT));
        move |draft| draft.arc(before, 5, 5, pushed)
    }

    fn turn(&mut self) {
        self.rule(&[8]);
        self.any(LEFT);
        let (touch, push) = (self.touch(FOCUS), self.push());
        touch(self);
        push(self);
    }
}

/// Document 01's house book: noise, turn, finish.
pub fn house() -> Vec<u8> {
    let mut draft = Draft::default();
    draft.rule(&[10]);
    let (before, rippled) = (draft.state(LEFT, START), draft.state(LEFT, ACCEPT));
    let (start, pressed, released) =
        (draft.state(FOCUS, START), draft.state(FOCUS, NEITHER), draft.state(FOCUS, ACCEPT));
    draft.any(RIGHT);
    draft.arc(before, 1, 1, rippled);
    draft.arc(start, 2, 2, pressed);
    draft.arc(pressed, 4, 4, released);
    draft.turn();
    draft.rule(&[9]);
    draft.any(LEFT);
    let arcs = draft.touch(FOCUS);
    let (none, one, two) = (draft.state(RIGHT, START), draft.state(RIGHT, NEITHER), draft.state(RIGHT, ACCEPT));
    arcs(&mut draft);
    draft.arc(none, 0, 0, one);
    draft.arc(one, 0, 0, two);
    draft.end()
}

/// The house book's turn alone: a single rule, which foma can express.
pub fn turn() -> Vec<u8> {
    let mut draft = Draft::default();
    draft.turn();
    draft.end()
}

/// The turn, and a rule with an empty focus: a lap mark is put in between a turn and the push after it.
pub fn lap() -> Vec<u8> {
    let mut draft = Draft::default();
    draft.turn();
    draft.rule(&[LAP]);
    let touch = draft.touch(LEFT);
    draft.any(FOCUS);
    let push = draft.push();
    touch(&mut draft);
    push(&mut draft);
    draft.end()
}

/// Sixteen rules that nearly every position starts, 64 states, 512 arcs.
pub fn dense(alphabet: Alphabet, chance: &mut Chance) -> Vec<u8> {
    let mut draft = Draft::default();
    for rule in 0..16u8 {
        let (start, more) = draft.free_rule(&[rule, alphabet.last() - rule], START);
        for _ in 0..16 {
            let (first, next) = (alphabet.any(chance), alphabet.lower_half().any(chance));
            draft.arc(start, first, first, more);
            draft.arc(more, next, next, more);
        }
    }
    draft.end()
}

/// One left part that asks for a symbol of the upper half exactly eight places before.
fn eight_before(draft: &mut Draft, alphabet: Alphabet) -> Vec<[u8; 4]> {
    draft.state(LEFT, START);
    let mut arcs = Vec::new();
    for k in 0..8 {
        let next = draft.state(LEFT, if k == 7 { ACCEPT } else { NEITHER });
        arcs.push([next - 1, if k == 0 { alphabet.eighth(4) } else { 0 }, alphabet.last(), next]);
    }
    arcs
}

/// One right part that asks for a symbol of the upper half exactly seven places on.
fn seven_on(draft: &mut Draft, alphabet: Alphabet) -> Vec<[u8; 4]> {
    draft.state(RIGHT, START);
    let mut arcs = Vec::new();
    for k in 0..7 {
        let next = draft.state(RIGHT, if k == 6 { ACCEPT } else { NEITHER });
        arcs.push([next - 1, if k == 6 { alphabet.eighth(4) } else { 0 }, alphabet.last(), next]);
    }
    arcs
}

/// One rule with 256 sets a side: the left set keeps eight symbols, the right set seven and whether a focus begins.
pub fn full_sets(alphabet: Alphabet) -> Vec<u8> {
    let mut draft = Draft::default();
    draft.rule(&[0]);
    let mut arcs = eight_before(&mut draft, alphabet);
    arcs.extend(one_symbol(&mut draft, alphabet));
    arcs.extend(seven_on(&mut draft, alphabet));
    arcs.iter().for_each(|[from, low, high, to]| draft.arc(*from, *low, *high, *to));
    draft.end()
}

/// A focus of one symbol of the middle half.
fn one_symbol(draft: &mut Draft, alphabet: Alphabet) -> Vec<[u8; 4]> {
    let (start, end) = (draft.state(FOCUS, START), draft.state(FOCUS, ACCEPT));
    vec![[start, alphabet.eighth(2), alphabet.eighth(6) - 1, end]]
}

/// The same sets with 64 states and 512 arcs, all in one rule: each part stands there several times, and so does each arc.
pub fn largest(alphabet: Alphabet) -> Vec<u8> {
    let mut draft = Draft::default();
    draft.rule(&[0]);
    let mut arcs = Vec::new();
    (0..4).for_each(|_| arcs.extend(eight_before(&mut draft, alphabet)));
    (0..3).for_each(|_| arcs.extend(seven_on(&mut draft, alphabet)));
    arcs.extend(one_symbol(&mut draft, alphabet));
    while draft.states < 64 {
        let looped = draft.state(LEFT, BOTH);
        arcs.push([looped, 0, alphabet.last(), looped]);
    }
    arcs.iter().cycle().take(ARCS).for_each(|[from, low, high, to]| draft.arc(*from, *low, *high, *to));
    draft.end()
}

/// Sixteen rules of which every stretch of every tape is a candidate, but for the empty ones: libraries before request 5 take it too.
pub fn every_stretch(alphabet: Alphabet) -> Vec<u8> {
    every(alphabet, START)
}

/// The same with the empty ones: as many candidates as there can be.
pub fn every_candidate(alphabet: Alphabet) -> Vec<u8> {
    every(alphabet, BOTH)
}

fn every(alphabet: Alphabet, first: u8) -> Vec<u8> {
    let mut draft = Draft::default();
    for rule in 0..16u8 {
        let (start, more) = draft.free_rule(&[rule], first);
        draft.arc(start, 0, alphabet.last(), more);
        draft.arc(more, 0, alphabet.last(), more);
    }
    draft.end()
}

/// Sixteen rules that each put eight symbols in at every place of every tape: the longest output that there can be.
pub fn every_place() -> Vec<u8> {
    let mut draft = Draft::default();
    for rule in 0..16u8 {
        draft.rule(&[rule; WORD]);
        [LEFT, FOCUS, RIGHT].into_iter().for_each(|part| draft.any(part));
    }
    draft.end()
}

/// A rule for each length of a word, 0 to 8, so that every place in a word has an origin to compare; not timed. A focus is one symbol, a
/// different one in each rule, and then any number of symbols above 8.
pub fn word_lengths(alphabet: Alphabet) -> Vec<u8> {
    const LONGEST: u8 = WORD as u8;
    let mut draft = Draft::default();
    for length in 0..=LONGEST {
        let word: Vec<u8> = (0..length).collect();
        let (start, more) = draft.free_rule(&word, START);
        draft.arc(start, length, length, more);
        draft.arc(more, LONGEST + 1, alphabet.last(), more);
    }
    draft.end()
}

/// The same words put in, each after a symbol of its own; not timed.
pub fn inserted_lengths() -> Vec<u8> {
    let mut draft = Draft::default();
    for length in 0..=WORD as u8 {
        let word: Vec<u8> = (0..length).collect();
        draft.rule(&word);
        let (before, after) = (draft.state(LEFT, START), draft.state(LEFT, ACCEPT));
        draft.any(FOCUS);
        draft.any(RIGHT);
        draft.arc(before, length, length, after);
    }
    draft.end()
}

/// The states of `no_two_alike` that accept, the classes of symbols that move them, and how many of them every set holds.
const MOVED: usize = 61;
const CLASSES: u8 = 7;
pub const HELD: usize = 45;

/// One rule with 62 focus states and 512 arcs: each class of symbols moves all accepting states about, so that a focus
/// set keeps its size and hardly ever comes again. Every stretch of every tape is a candidate.
pub fn no_two_alike(alphabet: Alphabet, chance: &mut Chance) -> Vec<u8> {
    let mut draft = Draft::default();
    draft.rule(&[0]);
    draft.any(LEFT);
    draft.any(RIGHT);
    let start = draft.state(FOCUS, START);
    let moved: Vec<u8> = (0..MOVED).map(|_| draft.state(FOCUS, ACCEPT)).collect();
    for class in 0..CLASSES {
        let last = if class == CLASSES - 1 { alphabet.last() } else { alphabet.eighth(class + 1) - 1 };
        for (from, to) in chance.order(MOVED).into_iter().enumerate() {
            draft.arc(moved[from], alphabet.eighth(class), last, moved[to]);
        }
    }
    let held = chance.order(MOVED);
    for k in 0..ARCS - draft.arcs {
        draft.arc(start, 0, alphabet.last(), moved[held[k % HELD]]);
    }
    draft.end()
}
