//! Texts for IMPORT: acceptors with so many states and arcs, their lines in any order and their numbers written in any
//! way that is allowed.

use super::alphabet::Alphabet;
use crate::chance::Chance;
use crate::text::{Said, HIGHEST_STATE};

/// How large a text is.
#[derive(Clone, Copy)]
pub struct Size {
    pub states: usize,
    pub arcs: usize,
}

impl Size {
    pub fn small(chance: &mut Chance) -> Size {
        let states = chance.weighted(&[(1, 1), (3, 2), (4, 3), (3, 4), (2, 5), (1, 6)]);
        Size { states, arcs: chance.below(3 * states + 1) }
    }
}

/// The lines of an acceptor in some order.
pub fn acceptor(size: Size, alphabet: &Alphabet, chance: &mut Chance) -> Vec<Said> {
    let said = drawn(size, alphabet, chance);
    in_some_order(said, chance)
}

/// The lines of an acceptor with exactly these states and arcs: each arc leads from a state that was reached before, and a
/// state that no arc names is named as final. The finals come last.
pub fn drawn(size: Size, alphabet: &Alphabet, chance: &mut Chance) -> Vec<Said> {
    let Size { states, arcs } = size;
    let names = names(states, chance);
    let mut said = Vec::new();
    let mut named = 0;
    // A text with states has a first one to start from; an arc leads to a new one, or between two that were named.
    for _ in 0..if states == 0 { 0 } else { arcs } {
        named = named.max(1);
        let source = names[chance.below(named)];
        if named < states && chance.below(4) < 3 {
            named += 1;
        }
        let destination = if chance.one_in(3) { names[chance.below(named)] } else { names[named - 1] };
        said.push(Said::Arc { source, destination, label: label(alphabet, chance) });
    }
    let met = |said: &[Said], name: u64| said.iter().any(|said| said.states().contains(&name));
    let unmet: Vec<u64> = names.iter().copied().filter(|name| !met(&said, *name)).collect();
    said.extend(unmet.into_iter().map(Said::Final));
    if states > 0 {
        let finals = chance.weighted(&[(1, 0), (6, 1), (3, 2), (1, 4)]);
        said.extend((0..finals).map(|_| Said::Final(chance.pick(&names))));
    }
    said
}

/// Different names for states: counted up or down, in any order, or anywhere up to the highest.
fn names(states: usize, chance: &mut Chance) -> Vec<u64> {
    let mut names: Vec<u64> = match chance.below(4) {
        0 | 1 => (0..states as u64).collect(),
        2 => (0..states as u64).rev().collect(),
        _ => {
            // One of each so many, the first of them the highest of all now and then.
            let step = HIGHEST_STATE / states.max(1) as u64;
            let mut below = || if chance.one_in(2) { 0 } else { chance.below(step as usize) as u64 };
            (0..states as u64).map(|at| HIGHEST_STATE - at * step - below()).collect()
        }
    };
    if chance.one_in(2) {
        chance.shuffle(&mut names);
    }
    names
}

/// "label k means symbol k - 1"
fn label(alphabet: &Alphabet, chance: &mut Chance) -> u64 {
    let symbol = if chance.one_in(4) { alphabet.any(chance) } else { alphabet.symbol(chance) };
    u64::from(symbol) + 1
}

/// As drawn, the finals last; turned round; or anyhow, so that a final state often comes first.
fn in_some_order(mut said: Vec<Said>, chance: &mut Chance) -> Vec<Said> {
    match chance.below(4) {
        0 => {}
        1 => said.reverse(),
        _ => chance.shuffle(&mut said),
    }
    // A line that stands twice: a repeated arc, or a state named as final twice.
    if chance.one_in(4) && !said.is_empty() {
        let (at, again) = (chance.below(said.len()), chance.below(said.len()));
        if matches!(said[again], Said::Final(_)) {
            said.insert(at, said[again]);
        } else {
            said[at] = said[again];
        }
    }
    said
}

/// The lines as they are written, each with its newline; zeros may stand before a number.
pub fn written(said: &[Said], chance: &mut Chance) -> Vec<Vec<u8>> {
    let zeros = chance.weighted(&[(4, 0), (1, 6), (1, 2)]);
    said.iter().map(|said| line(*said, zeros, chance)).collect()
}

/// One line; of so many numbers one has zeros in front.
fn line(said: Said, zeros: usize, chance: &mut Chance) -> Vec<u8> {
    let mut number = |number: u64| {
        let digits = chance.weighted(&[(6, 2), (3, 6), (2, 12), (1, 40)]);
        match zeros > 0 && chance.one_in(zeros) {
            true => format!("{number:0digits$}"),
            false => number.to_string(),
        }
    };
    let line = match said {
        Said::Arc { source, destination, label } => {
            format!("{}\t{}\t{}\n", number(source), number(destination), number(label))
        }
        Said::Final(state) => format!("{}\n", number(state)),
    };
    line.into_bytes()
}

/// A text of this size without a fault.
pub fn text(size: Size, alphabet: &Alphabet, chance: &mut Chance) -> Vec<u8> {
    let said = acceptor(size, alphabet, chance);
    written(&said, chance).concat()
}
