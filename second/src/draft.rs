//! Rules in draft: their three parts before the states are numbered across the book.

use crate::chance::Chance;
use crate::record::{self, BOTH, FOCUS, START};

/// One part: the flags of its states and its arcs, states numbered within the part.
#[derive(Clone, Default, Debug)]
pub struct Part {
    pub flags: Vec<u8>,
    pub arcs: Vec<Arc>,
}

#[derive(Clone, Copy, Debug)]
pub struct Arc {
    pub from: usize,
    pub lowest: u8,
    pub highest: u8,
    pub to: usize,
}

impl Part {
    /// "'Any' is one state with flags 3."
    pub fn any() -> Part {
        Part { flags: vec![BOTH], arcs: Vec::new() }
    }

    /// A part without states: it accepts no word.
    pub fn none() -> Part {
        Part::default()
    }

    /// Exactly this word.
    pub fn word(symbols: &[u8]) -> Part {
        let mut part = Part { flags: vec![record::NEITHER; symbols.len() + 1], arcs: Vec::new() };
        part.flags[0] |= START;
        part.flags[symbols.len()] |= record::ACCEPT;
        for (at, symbol) in symbols.iter().enumerate() {
            part.arc(at, *symbol, *symbol, at + 1);
        }
        part
    }

    pub fn arc(&mut self, from: usize, lowest: u8, highest: u8, to: usize) -> &mut Part {
        self.arcs.push(Arc { from, lowest, highest, to });
        self
    }

    /// The same with one more arc.
    pub fn with_arc(mut self, from: usize, lowest: u8, highest: u8, to: usize) -> Part {
        self.arc(from, lowest, highest, to);
        self
    }

    /// Read from back to front: starts and accepts change places, arcs turn round.
    pub fn mirrored(&self) -> Part {
        let turn = |flags: &u8| match *flags {
            START => record::ACCEPT,
            record::ACCEPT => START,
            other => other,
        };
        let turned = |arc: &Arc| Arc { from: arc.to, to: arc.from, ..*arc };
        Part { flags: self.flags.iter().map(turn).collect(), arcs: self.arcs.iter().map(turned).collect() }
    }

    /// Both languages in one part.
    pub fn or(mut self, other: &Part) -> Part {
        let shift = self.flags.len();
        self.flags.extend(&other.flags);
        self.arcs.extend(other.arcs.iter().map(|arc| Arc { from: arc.from + shift, to: arc.to + shift, ..*arc }));
        self
    }
}

/// A rule: its word, and its left, focus and right part.
#[derive(Clone, Debug)]
pub struct Rule {
    pub word: Vec<u8>,
    pub parts: [Part; 3],
}

impl Rule {
    pub fn new(left: Part, focus: Part, right: Part, word: &[u8]) -> Rule {
        Rule { word: word.to_vec(), parts: [left, focus, right] }
    }

    /// A rule whose focus accepts nothing, so that it never applies.
    pub fn idle(left: Part, right: Part) -> Rule {
        Rule::new(left, Part::none(), right, &[])
    }

    pub fn states(&self) -> usize {
        self.parts.iter().map(|part| part.flags.len()).sum()
    }

    pub fn arcs(&self) -> usize {
        self.parts.iter().map(|part| part.arcs.len()).sum()
    }

    pub fn focus(&self) -> &Part {
        &self.parts[FOCUS as usize]
    }
}

/// The records of a book, states part after part and the arcs after them.
pub fn records(rules: &[Rule]) -> Vec<Vec<u8>> {
    write(rules, None)
}

/// The records of a book with states and arcs in any order that "stand before it" allows.
pub fn mixed_records(rules: &[Rule], chance: &mut Chance) -> Vec<Vec<u8>> {
    write(rules, Some(chance))
}

/// The bytes of a book.
pub fn book(rules: &[Rule]) -> Vec<u8> {
    records(rules).concat()
}

fn write(rules: &[Rule], mut chance: Option<&mut Chance>) -> Vec<Vec<u8>> {
    let mut records = Vec::new();
    let mut given = 0;
    for rule in rules {
        records.push(record::rule(&rule.word));
        write_parts(rule, given, chance.as_deref_mut(), &mut records);
        given += rule.states();
    }
    records.push(record::end());
    records
}

/// A state within a rule: its part and its number within the part.
type Local = (usize, usize);

/// An arc record, and the later of the two states that it names.
struct ArcRecord {
    later_state: usize,
    record: Vec<u8>,
}

fn write_parts(rule: &Rule, given: usize, mut chance: Option<&mut Chance>, records: &mut Vec<Vec<u8>>) {
    let mut states = states_of(rule);
    if let Some(chance) = chance.as_deref_mut() {
        chance.shuffle(&mut states);
    }
    let mut arcs = arcs_of(rule, given, &states);
    if let Some(chance) = chance.as_deref_mut() {
        chance.shuffle(&mut arcs);
    }
    for (at, (part, state)) in states.iter().enumerate() {
        records.push(record::state(*part as u8, rule.parts[*part].flags[*state]));
        if chance.as_deref_mut().is_some_and(|chance| chance.one_in(2)) {
            // Arcs whose states both stand already may come at once.
            let (ready, waiting): (Vec<_>, Vec<_>) = arcs.into_iter().partition(|arc| arc.later_state <= given + at);
            records.extend(ready.into_iter().map(|arc| arc.record));
            arcs = waiting;
        }
    }
    records.extend(arcs.into_iter().map(|arc| arc.record));
}

fn states_of(rule: &Rule) -> Vec<Local> {
    let of_part = |part: usize| (0..rule.parts[part].flags.len()).map(move |state| (part, state));
    (0..3).flat_map(of_part).collect()
}

/// The arc records of a rule whose states come in this order after those already given.
fn arcs_of(rule: &Rule, given: usize, states: &[Local]) -> Vec<ArcRecord> {
    let number = |local: Local| given + states.iter().position(|state| *state == local).expect("a state of the rule");
    let mut arcs = Vec::new();
    for (part, draft) in rule.parts.iter().enumerate() {
        for arc in &draft.arcs {
            let (from, to) = (number((part, arc.from)), number((part, arc.to)));
            let record = record::arc(from as u8, arc.lowest, arc.highest, to as u8);
            arcs.push(ArcRecord { later_state: from.max(to), record });
        }
    }
    arcs
}
