//! Sizes at every limit and one past it.

use second::account::WORDS_A_LINE;
use second::agreement::Agreement;
use second::call::{Call, Lengths, Operation};
use second::chance::Chance;
use second::draft::{self, Part, Rule};
use second::generate::calls::call;
use second::generate::full;
use second::generate::limits::LIMITS;
use second::operations::{answer, answer_by};
use second::reading::Reading;
use second::record::{self, ARC, RULE, STATE};
use second::tally::{Tally, WHOLE_RUN};

fn built(rule: Rule) -> (u8, [u64; 4]) {
    let mut call = Call::new(Operation::Build);
    call.book = draft::book(&[rule]);
    call.lengths = Lengths { rows: 16_384, sets: 512, ..Lengths::default() };
    let answer = answer(&call, Reading::TRUE);
    (answer.reply, answer.counts)
}

#[test]
fn eight_places_are_built_and_nine_refused() {
    let any = Part::any;
    assert_eq!(built(Rule::idle(full::places_before(8), any())), (0, [256, 1, 0, 0]));
    assert_eq!(built(Rule::idle(full::places_before(9), any())), (13, [0; 4]));
    assert_eq!(built(Rule::idle(any(), full::places_before(8).mirrored())), (0, [1, 256, 0, 0]));
    assert_eq!(built(Rule::idle(any(), full::places_before(9).mirrored())), (14, [0; 4]));
}

#[test]
fn the_257th_set_is_refused() {
    for sets in 250..=262 {
        let part = full::counters(sets, 16, &mut Chance::of(3, sets as u64));
        let expected = if sets <= 256 { (0, [sets as u64, 1, 0, 0]) } else { (13, [0; 4]) };
        assert_eq!(built(Rule::idle(part.clone(), Part::any())), expected, "{sets} left sets");
        let expected = if sets <= 256 { (0, [1, sets as u64, 0, 0]) } else { (14, [0; 4]) };
        assert_eq!(built(Rule::idle(Part::any(), part.mirrored())), expected, "{sets} right sets");
    }
}

#[test]
fn tapes_of_4096_and_4097_symbols() {
    let mut call = Call::new(Operation::Rewrite);
    call.book = draft::book(&[Rule::new(Part::any(), Part::word(&[1]), Part::any(), &[2; 8])]);
    call.lengths = Lengths { rows: 16_384, sets: 512, scratch: 4098, out: 32_768, origins: 32_768, lines: 0 };
    call.tape = vec![1; 4096];
    let accepted = answer(&call, Reading::TRUE);
    assert_eq!((accepted.reply, accepted.counts), (0, [32_768, 4096, 0, 0]));
    assert_eq!(accepted.lent.origins[32_767], 4095);
    call.tape.push(1);
    let refused = answer(&call, Reading::TRUE);
    assert_eq!((refused.reply, refused.place, refused.counts), (9, 0, [0; 4]));
}

/// Each of 4,096 symbols kept, and eight inserted at 4,097 places.
#[test]
fn longest_output() {
    let mut call = Call::new(Operation::Rewrite);
    call.book = draft::book(&[full::every_place(&[2; 8])]);
    call.lengths = Lengths { rows: 16_384, sets: 512, scratch: 4097, out: 36_872, origins: 36_872, lines: 0 };
    call.tape = vec![1; 4096];
    let accepted = answer(&call, Reading::TRUE);
    assert_eq!((accepted.reply, accepted.counts), (0, [36_872, 4097, 0, 0]));
    assert_eq!(accepted.lent.out[36_862..], [2, 1, 2, 2, 2, 2, 2, 2, 2, 2]);
    assert_eq!(accepted.lent.origins[36_862..], [4095, 4095, 4096, 4096, 4096, 4096, 4096, 4096, 4096, 4096]);
    call.lengths.out -= 1;
    let refused = answer(&call, Reading::TRUE);
    assert_eq!((refused.reply, refused.place, refused.counts), (15, 36_872, [0; 4]));
}

/// Of 16 rules on the longest tape: every stretch with a symbol, every stretch, every empty stretch.
#[test]
fn most_candidates_are_counted() {
    let mut call = Call::new(Operation::Account);
    call.lengths = Lengths { rows: 16_384, sets: 512, scratch: 4097, lines: WORDS_A_LINE, ..Lengths::default() };
    call.tape = vec![0; 4096];
    let rules = [
        (full::every_stretch(&[]), 4096 * 4097 / 2),
        (full::every_stretch_and_place(&[]), 4097 * 4098 / 2),
        (full::every_place(&[]), 4097),
    ];
    for (rule, stretches) in rules {
        call.book = draft::book(&vec![rule; 16]);
        let answer = answer(&call, Reading::TRUE);
        assert_eq!((answer.reply, answer.place), (15, WORDS_A_LINE as u64 * 16 * stretches));
    }
}

fn checked(records: &[Vec<u8>]) -> (u8, u64, [u64; 4]) {
    let mut call = Call::new(Operation::Check);
    call.book = records.concat();
    let answer = answer(&call, Reading::TRUE);
    (answer.reply, answer.place, answer.counts)
}

#[test]
fn rules_states_and_arcs() {
    for (kind, limit, count) in [(RULE, 16, 0), (STATE, 64, 1), (ARC, 512, 2)] {
        let mut records = full::filled(kind, limit, &mut Chance::of(1, kind as u64));
        let (reply, _, counts) = checked(&records);
        assert_eq!((reply, counts[count]), (0, limit as u64));
        let end = records.pop().expect("an end record");
        let offset = records.concat().len() as u64;
        records.push(match kind {
            RULE => record::rule(&[]),
            STATE => record::state(255, 255),
            _ => record::arc(255, 255, 255, 255),
        });
        records.push(end);
        assert_eq!(checked(&records), (3, offset, [0; 4]), "3 comes before 5 and 6");
    }
}

/// Every limit of the generator gives an acceptance and a refusal before long (the slowest ones refuse alone).
#[test]
fn limits_are_met_on_both_sides() {
    for (name, weight, maker) in LIMITS.iter().filter(|(_, weight, _)| *weight > 10) {
        let replies: Vec<u8> = (0..60)
            .map(|number| answer(&maker(&mut Chance::of(9, number)).within_limits(), Reading::TRUE).reply)
            .collect();
        assert!(replies.contains(&0) || *name == "longest book sent", "{name} ({weight}) is never accepted");
        assert!(replies.iter().any(|reply| *reply != 0), "{name} is never refused");
    }
}

/// A whole run meets every reply of every operation. Of the calls that come to the sets, nine in ten are worked out
/// plainly; the others all are.
#[test]
fn a_whole_run_meets_every_reply_and_is_plain() {
    let mut tally = Tally::default();
    let (mut with_sets, mut plain) = (0, 0);
    for number in 0..WHOLE_RUN {
        let agreement = Agreement::of(Reading::TRUE);
        let answer = answer_by(&call(2, number), &agreement);
        tally.add(&answer);
        let comes_to_sets = !matches!(answer.operation, Operation::Check | Operation::Show | Operation::Import);
        let has_sets = comes_to_sets && matches!(answer.reply, 0 | 13..=15);
        assert!(has_sets || agreement.is_plain(), "call {number}");
        with_sets += u64::from(has_sets);
        plain += u64::from(has_sets && agreement.is_plain());
    }
    println!("{}{plain} of {with_sets} calls with sets are plain", tally.table());
    assert_eq!(tally.never_met(), Vec::<String>::new());
    assert!(10 * plain >= 9 * with_sets, "{plain} of {with_sets}");
}
