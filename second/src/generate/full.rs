//! Books at the limits of their counts: 16 rules, 64 states, 512 arcs, 256 sets a side, and one past each.

use super::alphabet::Alphabet;
use super::damage;
use super::rules::rules;
use crate::book::{HIGHEST_SYMBOL, MOST_ARCS, MOST_RULES, MOST_STATES};
use crate::chance::Chance;
use crate::draft::{self, Part, Rule};
use crate::record::{self, ACCEPT, ARC, NEITHER, RULE, START, STATE};
use crate::wrong_symbol::HIGHEST_OLD;

/// The records of a book with exactly the wanted number of rules, states or arcs.
pub fn filled(kind: u8, wanted: usize, chance: &mut Chance) -> Vec<Vec<u8>> {
    let alphabet = Alphabet::of(chance);
    let mut rules = rules(&alphabet, chance);
    match kind {
        RULE => rules.resize(wanted, Rule::idle(Part::none(), Part::none())),
        STATE => fill_states(&mut rules, wanted, chance),
        _ => fill_arcs(&mut rules, wanted, &alphabet, chance),
    }
    draft::mixed_records(&rules, chance)
}

fn fill_states(rules: &mut [Rule], wanted: usize, chance: &mut Chance) {
    let given: usize = rules.iter().map(Rule::states).sum();
    for _ in given..wanted {
        let part = chance.below(3);
        let flags = chance.pick(&[NEITHER, NEITHER, ACCEPT]);
        rules[0].parts[part].flags.push(flags);
    }
}

/// "repeated arcs do no harm"
fn fill_arcs(rules: &mut [Rule], wanted: usize, alphabet: &Alphabet, chance: &mut Chance) {
    let given: usize = rules.iter().map(Rule::arcs).sum();
    let rule = chance.below(rules.len());
    let part = chance.below(3);
    let part = &mut rules[rule].parts[part];
    if part.flags.is_empty() {
        *part = Part { flags: vec![START, ACCEPT], arcs: Vec::new() };
    }
    for _ in given..wanted {
        let (lowest, highest) = alphabet.range(chance);
        let (from, to) = (chance.below(part.flags.len()), chance.below(part.flags.len()));
        part.arc(from, lowest, highest, to);
    }
}

/// A full book and one more record of that kind, which may have other faults too.
pub fn overfilled(kind: u8, chance: &mut Chance) -> Vec<u8> {
    let limit = match kind {
        RULE => MOST_RULES,
        STATE => MOST_STATES,
        _ => MOST_ARCS,
    };
    let mut records = filled(kind, limit, chance);
    let end = records.pop();
    let mut one_more = match chance.one_in(2) {
        true => damage::faulty_of(kind, chance),
        false => record_with_one_fault(kind, &records, chance),
    };
    if chance.one_in(4) {
        one_more.pop();
        records.push(one_more);
        return records.concat();
    }
    records.push(one_more);
    records.extend(end);
    records.concat()
}

/// A record that only the count can refuse.
fn record_with_one_fault(kind: u8, records: &[Vec<u8>], chance: &mut Chance) -> Vec<u8> {
    match kind {
        RULE => record::rule(&[1]),
        STATE => chance.pick(&[record::state(record::LEFT, START), record::state(record::FOCUS, record::BOTH)]),
        _ => records.iter().rev().find(|record| record[0] == ARC).expect("a full book has arcs").clone(),
    }
}

/// "A left part that asks for symbol 1 exactly eight places before the present position, with a full range after it,
/// has 256 sets and is built; nine places gives 512"
pub fn places_before(places: usize) -> Part {
    let mut part = Part { flags: vec![NEITHER; places + 1], arcs: Vec::new() };
    part.flags[0] = START;
    part.flags[places] = ACCEPT;
    part.arc(0, 1, 1, 1);
    for at in 1..places {
        part.arc(at, 0, HIGHEST_SYMBOL, at + 1);
    }
    part
}

/// The same part in an old book, with arcs up to 15 and no further.
pub fn old(mut part: Part) -> Part {
    part.arcs.retain(|arc| arc.lowest <= HIGHEST_OLD);
    part.arcs.iter_mut().for_each(|arc| arc.highest = arc.highest.min(HIGHEST_OLD));
    part
}

/// A left part with exactly the wanted number of sets: two counters, each kept up by the other's symbol, give
/// `wide` times `high`; a third symbol empties both and counts the rest.
pub fn counters(sets: usize, wide: usize, chance: &mut Chance) -> Part {
    let (high, rest) = (sets / wide, sets % wide);
    let mut symbols: Vec<u8> = (0..=HIGHEST_SYMBOL).collect();
    chance.shuffle(&mut symbols);
    let [one, other, empties] = [symbols[0], symbols[1], symbols[2]];
    let counter = counter(wide, one, &|symbol| symbol != one && symbol != empties);
    let counter = counter.or(&self::counter(high, other, &|symbol| symbol != other && symbol != empties));
    counter.or(&self::counter(rest + 1, empties, &|_| false))
}

/// Counts one symbol up to `states` - 1, kept up by the symbols named.
fn counter(states: usize, counted: u8, keeps: &dyn Fn(u8) -> bool) -> Part {
    let mut part = Part { flags: vec![NEITHER; states], arcs: Vec::new() };
    part.flags[0] = START;
    for state in 0..states {
        if state + 1 < states {
            part.arc(state, counted, counted, state + 1);
        }
        for (lowest, highest) in ranges(keeps) {
            part.arc(state, lowest, highest, state);
        }
    }
    if states > 1 {
        part.flags[states - 1] = ACCEPT;
    }
    part
}

/// The symbols named, as ranges.
fn ranges(named: &dyn Fn(u8) -> bool) -> Vec<(u8, u8)> {
    let mut ranges: Vec<(u8, u8)> = Vec::new();
    for symbol in (0..=HIGHEST_SYMBOL).filter(|symbol| named(*symbol)) {
        match ranges.last_mut() {
            Some((_, highest)) if *highest + 1 == symbol => *highest = symbol,
            _ => ranges.push((symbol, symbol)),
        }
    }
    ranges
}

/// Every stretch with a symbol is a candidate.
pub fn every_stretch(word: &[u8]) -> Rule {
    let focus = Part::word(&[0]).with_arc(0, 0, HIGHEST_SYMBOL, 1).with_arc(1, 0, HIGHEST_SYMBOL, 1);
    Rule::new(Part::any(), focus, Part::any(), word)
}

/// Every stretch is a candidate, the empty ones too.
pub fn every_stretch_and_place(word: &[u8]) -> Rule {
    Rule::new(Part::any(), Part::word(&[]).with_arc(0, 0, HIGHEST_SYMBOL, 0), Part::any(), word)
}

/// The empty stretch is a candidate at every position and at the tape's end, and no other is.
pub fn every_place(word: &[u8]) -> Rule {
    Rule::new(Part::any(), Part::word(&[]), Part::any(), word)
}
