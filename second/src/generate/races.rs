//! Two tapes with a marker between them, for books that have the marker on no arc.

use super::alphabet::Alphabet;
use super::{imported, rules, tapes};
use crate::book::{self, Arc};
use crate::call::Lengths;
use crate::chance::Chance;
use crate::draft::Rule;
use crate::races::case::{on_no_arc, Case, OnArc};
use crate::reading::Reading;
use crate::record::{self, ARC, RULE};

/// Case NUMBER of a run with a seed: drawn again until the call on the joined tape is accepted.
pub fn case(seed: u64, number: u64, on_arc: OnArc) -> Case {
    let chance = &mut Chance::of(seed, number);
    loop {
        if let Some(case) = drawn(on_arc, chance).filter(Case::is_accepted) {
            return case;
        }
    }
}

/// Nothing if the book has every symbol on an arc, or too many arcs.
fn drawn(on_arc: OnArc, chance: &mut Chance) -> Option<Case> {
    let alphabet = Alphabet::of(chance);
    let mut rules = rules::rules(&alphabet, chance);
    let mut records = imported::records_of(&mut rules, &alphabet, chance);
    // So that ranges often end and begin next to the marker.
    let cut = chance.one_in(2).then(|| alphabet.any(chance));
    if let Some(marker) = cut {
        records = records.into_iter().flat_map(|record| cut_at(marker, record, on_arc)).collect();
    }
    let unused = on_no_arc(&book::read(&records.concat(), Reading::TRUE).ok()?, on_arc);
    if unused.is_empty() {
        return None;
    }
    let marker = cut.unwrap_or_else(|| chance.pick(&unused));
    if chance.one_in(3) {
        records.iter_mut().for_each(|record| put_in_word(marker, record, chance));
    }
    let [first, second] = [0, 1].map(|_| tape(&rules, &alphabet, marker, chance));
    let (book, fill) = (records.concat(), chance.byte());
    let case = Case { book, marker, first, second, fill, lengths: [Lengths::default(); 3] };
    let more = chance.weighted(&[(2, 0), (1, 1), (1, 12)]);
    Some(case.lent(more, [chance.one_in(2), chance.one_in(2)]))
}

/// An arc record that has the marker is cut there into the ranges below and above it.
fn cut_at(marker: u8, record: Vec<u8>, on_arc: OnArc) -> Vec<Vec<u8>> {
    let [ARC, from, lowest, highest, to] = record[..] else { return vec![record] };
    if !on_arc(&Arc { from: from.into(), lowest, highest, to: to.into() }, marker) {
        return vec![record];
    }
    let below = (lowest < marker).then(|| record::arc(from, lowest, marker - 1, to));
    let above = (marker < highest).then(|| record::arc(from, marker + 1, highest, to));
    below.into_iter().chain(above).collect()
}

/// A rule's word may hold the marker: only arcs may not.
fn put_in_word(marker: u8, record: &mut [u8], chance: &mut Chance) {
    if let [RULE, length @ 1..=8, symbols @ ..] = record {
        symbols[chance.below(*length as usize)] = marker;
    }
}

/// A tape as of any call; now and then the marker stands in it too.
fn tape(rules: &[Rule], alphabet: &Alphabet, marker: u8, chance: &mut Chance) -> Vec<u8> {
    let mut tape = tapes::tape(rules, alphabet, chance);
    if chance.one_in(8) {
        tape.insert(chance.below(tape.len() + 1), marker);
    }
    tape
}
