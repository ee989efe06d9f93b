//! Regular expressions: written for a peer, and turned into a part of the book.

use crate::chance::Chance;
use crate::draft::Part;
use crate::record::{ACCEPT, NEITHER, START};

#[derive(Clone, Debug)]
pub enum Expression {
    /// One symbol from lowest to highest.
    Symbol(u8, u8),
    Then(Box<Expression>, Box<Expression>),
    Or(Box<Expression>, Box<Expression>),
    /// Any number of times, or at least once, or at most once.
    Star(Box<Expression>),
    Plus(Box<Expression>),
    Maybe(Box<Expression>),
}

use Expression::{Maybe, Or, Plus, Star, Symbol, Then};

/// Symbols are written as letters from a; a tape uses the first few of them.
pub fn letter(symbol: u8) -> char {
    (b'a' + symbol) as char
}

/// How many letters the expressions use.
pub const LETTERS: usize = 3;

impl Expression {
    /// An expression with that many symbols in it.
    pub fn of(symbols: usize, chance: &mut Chance) -> Expression {
        let expression = if symbols == 1 {
            let (one, other) = (chance.below(LETTERS) as u8, chance.below(LETTERS) as u8);
            chance.weighted(&[(3, Symbol(one, one)), (1, Symbol(one.min(other), one.max(other)))])
        } else {
            let first = chance.between(1, symbols - 1);
            let pair = (Box::new(Expression::of(first, chance)), Box::new(Expression::of(symbols - first, chance)));
            if chance.below(3) < 2 {
                Then(pair.0, pair.1)
            } else {
                Or(pair.0, pair.1)
            }
        };
        match chance.weighted(&[(9, 0), (1, 1), (1, 2), (1, 3)]) {
            0 => expression,
            1 => Star(Box::new(expression)),
            2 => Plus(Box::new(expression)),
            _ => Maybe(Box::new(expression)),
        }
    }

    /// As foma and hfst read it.
    pub fn written(&self) -> String {
        match self {
            Symbol(lowest, highest) => {
                let letters: Vec<String> = (*lowest..=*highest).map(|symbol| letter(symbol).to_string()).collect();
                format!("[{}]", letters.join("|"))
            }
            Then(one, other) => format!("[{} {}]", one.written(), other.written()),
            Or(one, other) => format!("[{}|{}]", one.written(), other.written()),
            Star(inner) => format!("[{}]*", inner.written()),
            Plus(inner) => format!("[{}]+", inner.written()),
            Maybe(inner) => format!("({})", inner.written()),
        }
    }

    pub fn holds_empty(&self) -> bool {
        match self {
            Symbol(..) => false,
            Then(one, other) => one.holds_empty() && other.holds_empty(),
            Or(one, other) => one.holds_empty() || other.holds_empty(),
            Star(_) | Maybe(_) => true,
            Plus(inner) => inner.holds_empty(),
        }
    }

    /// One state for each symbol of the expression, reached when that symbol was read, and a start state before them.
    pub fn part(&self) -> Part {
        let mut positions = Positions::default();
        let ends = positions.read(self);
        let mut part = Part { flags: vec![NEITHER; 1 + positions.symbols.len()], arcs: Vec::new() };
        part.flags[0] = START + if self.holds_empty() { ACCEPT } else { NEITHER };
        ends.last.iter().for_each(|last| part.flags[1 + last] = ACCEPT);
        let (firsts, follows) = (ends.first.iter().map(|to| (0, *to)), positions.follows.iter());
        for (from, to) in firsts.chain(follows.map(|(from, to)| (1 + from, *to))) {
            let (lowest, highest) = positions.symbols[to];
            part.arc(from, lowest, highest, 1 + to);
        }
        part
    }
}

/// The symbols of an expression in the order written, and which can follow which.
#[derive(Default)]
struct Positions {
    symbols: Vec<(u8, u8)>,
    follows: Vec<(usize, usize)>,
}

/// The symbols with which a word of an expression can begin and end.
#[derive(Clone)]
struct Ends {
    first: Vec<usize>,
    last: Vec<usize>,
}

impl Positions {
    fn read(&mut self, expression: &Expression) -> Ends {
        match expression {
            Symbol(lowest, highest) => {
                self.symbols.push((*lowest, *highest));
                let only = vec![self.symbols.len() - 1];
                Ends { first: only.clone(), last: only }
            }
            Then(one, other) => {
                let (before, after) = (self.read(one), self.read(other));
                self.join(&before.last, &after.first);
                let first = if one.holds_empty() { [&before.first[..], &after.first].concat() } else { before.first };
                let last = if other.holds_empty() { [&before.last[..], &after.last].concat() } else { after.last };
                Ends { first, last }
            }
            Or(one, other) => {
                let (one, other) = (self.read(one), self.read(other));
                Ends { first: [one.first, other.first].concat(), last: [one.last, other.last].concat() }
            }
            Star(inner) | Plus(inner) => {
                let ends = self.read(inner);
                self.join(&ends.last, &ends.first);
                ends
            }
            Maybe(inner) => self.read(inner),
        }
    }

    fn join(&mut self, before: &[usize], after: &[usize]) {
        for from in before {
            self.follows.extend(after.iter().map(|to| (*from, *to)));
        }
    }
}
