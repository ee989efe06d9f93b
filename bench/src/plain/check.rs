//! CHECK.

use crate::answer::{Checked, ARCS, RULES, STATES, SYMBOLS, WORD};

/// The length of a record with its kind byte; 0 for an unknown kind.
pub fn record_size(kind: u8) -> usize {
    match kind {
        1 => 2 + WORD,
        2 => 3,
        3 => 5,
        4 => 1,
        _ => 0,
    }
}

/// What the records so far have given.
struct Scan {
    rules: usize,
    states: usize,
    arcs: usize,
    /// The number of the latest rule's first state.
    first: usize,
    parts: [u8; STATES],
}

pub fn check(book: &[u8]) -> Checked {
    let mut scan = Scan { rules: 0, states: 0, arcs: 0, first: 0, parts: [0; STATES] };
    let mut at = 0;
    loop {
        let Some(&kind) = book.get(at) else { return refused(1, at) };
        let size = record_size(kind);
        if size == 0 {
            return refused(2, at);
        }
        let Some(body) = book.get(at + 1..at + size) else { return refused(1, at) };
        let reply = scan.read(kind, body);
        if reply != 0 {
            return refused(reply, at);
        }
        at += size;
        if kind == 4 {
            break;
        }
    }
    if at < book.len() {
        return refused(8, at);
    }
    Checked { reply: 0, place: 0, rules: scan.rules, states: scan.states, arcs: scan.arcs }
}

fn refused(reply: u8, place: usize) -> Checked {
    Checked { reply, place, rules: 0, states: 0, arcs: 0 }
}

impl Scan {
    /// The reply on one record, which is counted if it is 0.
    fn read(&mut self, kind: u8, body: &[u8]) -> u8 {
        if kind == 1 {
            return self.rule(body);
        }
        if self.rules == 0 {
            return 4;
        }
        match kind {
            2 => self.state(body[0], body[1]),
            3 => self.arc(body),
            _ => 0,
        }
    }

    fn rule(&mut self, body: &[u8]) -> u8 {
        if self.rules == RULES {
            return 3;
        }
        let length = body[0] as usize;
        if length > WORD {
            return 5;
        }
        let (word, unused) = body[1..].split_at(length);
        if word.iter().any(|symbol| *symbol as usize >= SYMBOLS) || unused.iter().any(|byte| *byte != 0) {
            return 5;
        }
        self.rules += 1;
        self.first = self.states;
        0
    }

    fn state(&mut self, part: u8, flags: u8) -> u8 {
        if self.states == STATES {
            return 3;
        }
        if part > 2 || flags > 3 {
            return 5;
        }
        self.parts[self.states] = part;
        self.states += 1;
        0
    }

    fn arc(&mut self, body: &[u8]) -> u8 {
        if self.arcs == ARCS {
            return 3;
        }
        let (from, low, high, to) = (body[0] as usize, body[1], body[2], body[3] as usize);
        if low > high || high as usize >= SYMBOLS {
            return 5;
        }
        let given = self.first..self.states;
        if !given.contains(&from) || !given.contains(&to) || self.parts[from] != self.parts[to] {
            return 6;
        }
        self.arcs += 1;
        0
    }
}
