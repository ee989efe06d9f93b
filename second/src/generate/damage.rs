//! Damaged books: every reply from 1 to 6 and 8, several faults in one record, truncation and garbage.

use super::alphabet::EDGES;
use crate::book::{HIGHEST_SYMBOL, SYMBOLS};
use crate::chance::Chance;
use crate::record::{self, ARC, BOTH, END, FOCUS, RULE, STATE};

/// Bytes below this are symbols, and a few are just past them.
const SMALL: usize = SYMBOLS + 4;

/// A book made from valid records by one to three damages.
pub fn damaged(mut records: Vec<Vec<u8>>, chance: &mut Chance) -> Vec<u8> {
    if chance.one_in(12) {
        return garbage(chance);
    }
    if chance.one_in(30) {
        return cut_at_once(chance);
    }
    for _ in 0..chance.weighted(&[(6, 1), (2, 2), (1, 3)]) {
        damage(&mut records, chance);
    }
    let mut book = records.concat();
    if chance.one_in(5) {
        book.truncate(chance.below(book.len() + 1));
    }
    book
}

fn damage(records: &mut Vec<Vec<u8>>, chance: &mut Chance) {
    if records.is_empty() {
        return;
    }
    let at = chance.below(records.len());
    match chance.below(13) {
        0 => drop(records.pop()),
        1 => records[at][0] = unknown_kind(chance),
        2 => records.insert(0, faulty(chance)),
        3 => records.insert(at, faulty(chance)),
        4 => spoil_field(&mut records[at], chance),
        5 => rename_states(records, chance),
        // No fault where it stands, but the states after it get other numbers.
        6 => records.insert(at, record::state(FOCUS, BOTH)),
        7 => records.push((0..chance.between(1, 5)).map(|_| chance.byte()).collect()),
        8 => drop(records.remove(at)),
        9 => records.insert(at, records[chance.below(records.len())].clone()),
        10 => records[at].truncate(1),
        11 => spoil_symbol(records, chance),
        _ => spoil_bytes(records, chance),
    }
}

fn unknown_kind(chance: &mut Chance) -> u8 {
    chance.weighted(&[(2, 0), (2, 5), (1, 6), (1, 128), (1, 255)])
}

/// A record of any kind whose fields are each near their bounds: none, one or several of them are at fault. Now and
/// then its body is cut.
pub fn faulty(chance: &mut Chance) -> Vec<u8> {
    let kind = chance.weighted(&[(3, RULE), (4, STATE), (5, ARC), (1, END)]);
    let mut record = faulty_of(kind, chance);
    if chance.one_in(6) {
        record.truncate(chance.between(1, record.len()));
    }
    record
}

pub fn faulty_of(kind: u8, chance: &mut Chance) -> Vec<u8> {
    match kind {
        RULE => faulty_rule(chance),
        STATE => {
            let part = chance.weighted(&[(3, 0), (5, FOCUS), (3, 2), (1, 3), (1, 255)]);
            let flags = chance.weighted(&[(1, 0), (1, 1), (1, 2), (3, BOTH), (1, 4), (1, 255)]);
            record::state(part, flags)
        }
        ARC => {
            let (from, to) = (near_state(chance), near_state(chance));
            let (lowest, highest) = (near_symbol(chance), near_symbol(chance));
            match chance.one_in(2) {
                true => record::arc(from, lowest, highest, to),
                false => record::arc(from, lowest.min(highest), lowest.max(highest), to),
            }
        }
        _ => record::end(),
    }
}

fn near_state(chance: &mut Chance) -> u8 {
    let low = chance.below(6) as u8;
    let any = chance.below(64) as u8;
    chance.weighted(&[(6, low), (3, any), (1, 63), (1, 64), (1, 65), (1, 255)])
}

fn near_symbol(chance: &mut Chance) -> u8 {
    let good = chance.below(SYMBOLS) as u8;
    let edge = chance.pick(&EDGES);
    chance.weighted(&[(7, good), (3, edge), (2, HIGHEST_SYMBOL + 1), (1, 255)])
}

fn faulty_rule(chance: &mut Chance) -> Vec<u8> {
    let length = chance.weighted(&[(1, 0), (2, 3), (1, 7), (2, 8), (2, 9), (1, 255)]);
    let mut rule = record::rule(&[]);
    rule[1] = length;
    let used = (length as usize).min(record::LONGEST_WORD);
    rule[2..2 + used].iter_mut().for_each(|symbol| *symbol = chance.below(SYMBOLS) as u8);
    match chance.below(4) {
        0 => rule[2 + chance.below(8)] = 1,
        1 => rule[2 + chance.below(used.max(1))] = edge_or_past(chance),
        2 => rule[9] = chance.byte(),
        _ => {}
    }
    rule
}

/// One field of a record set to any value, most often one just outside its bounds.
fn spoil_field(record: &mut [u8], chance: &mut Chance) {
    if record.len() > 1 {
        let at = chance.between(1, record.len() - 1);
        let symbol = edge_or_past(chance);
        record[at] = chance.weighted(&[(2, 1), (2, 3), (1, 4), (1, 8), (2, 9), (7, symbol), (1, 64), (1, 255)]);
    }
}

/// 15, 16, 31, 32 or 33; the first that is refused, 32, more often.
fn edge_or_past(chance: &mut Chance) -> u8 {
    let edge = chance.pick(&EDGES);
    chance.weighted(&[(3, edge), (4, HIGHEST_SYMBOL + 1), (1, HIGHEST_SYMBOL + 2)])
}

/// A symbol of some word or of some arc of a book made one of these.
pub fn spoil_symbol(records: &mut [Vec<u8>], chance: &mut Chance) {
    let kind = chance.pick(&[RULE, ARC]);
    let symbols = |record: &[u8]| match record {
        [RULE, length, symbols @ ..] if kind == RULE => 2..2 + symbols.len().min(*length as usize),
        [ARC, _, _, _, _] if kind == ARC => 2..4,
        _ => 0..0,
    };
    let fields = |at: usize| symbols(&records[at]).map(move |field| (at, field));
    let fields: Vec<(usize, usize)> = (0..records.len()).flat_map(fields).collect();
    if !fields.is_empty() {
        let (at, field) = chance.pick(&fields);
        records[at][field] = edge_or_past(chance);
        // An arc may have both of its symbols past the last.
        if kind == ARC && chance.one_in(3) {
            records[at][2] = records[at][field];
            records[at][3] = records[at][field];
        }
    }
}

/// An arc of the book is made to name other states: of another part, of another rule, or not yet given.
fn rename_states(records: &mut [Vec<u8>], chance: &mut Chance) {
    let states = records.iter().filter(|record| record[0] == STATE).count();
    let arcs: Vec<usize> = (0..records.len()).filter(|at| records[*at][0] == ARC).collect();
    if arcs.is_empty() {
        return;
    }
    let arc = chance.pick(&arcs);
    let field = chance.pick(&[1, 4]);
    if let Some(state) = records[arc].get_mut(field) {
        *state = chance.below(states + 2) as u8;
    }
}

fn spoil_bytes(records: &mut [Vec<u8>], chance: &mut Chance) {
    for _ in 0..chance.between(1, 3) {
        let at = chance.below(records.len());
        let byte = chance.below(records[at].len().max(1));
        if let Some(byte) = records[at].get_mut(byte) {
            *byte = if chance.one_in(2) { chance.byte() } else { chance.below(SMALL) as u8 };
        }
    }
}

/// A book that stops inside its first record, which need not be a rule.
fn cut_at_once(chance: &mut Chance) -> Vec<u8> {
    let mut record = faulty(chance);
    record.truncate(chance.between(1, record.len()));
    record
}

/// Bytes without sense; small ones keep the reader going longer.
fn garbage(chance: &mut Chance) -> Vec<u8> {
    let length = chance.below(60);
    let bound = chance.pick(&[3, 5, SMALL, 256]);
    let mut bytes: Vec<u8> = (0..length).map(|_| chance.below(bound) as u8).collect();
    if chance.one_in(2) {
        bytes.splice(0..0, record::rule(&[]));
    }
    bytes
}
