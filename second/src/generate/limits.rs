//! Sizes at every limit and one past it.

use super::alphabet::{Alphabet, EDGES};
use super::buffers::{most_inserted, most_replaced};
use super::damage;
use super::full;
use super::heats;
use super::imports;
use super::tapes;
use crate::account::WORDS_A_LINE;
use crate::admission::LONGEST_TAPE;
use crate::book::{HIGHEST_SYMBOL, MOST_ARCS, MOST_RULES, MOST_STATES, SYMBOLS};
use crate::call::{Call, Lane, Lengths, Operation, LONGEST_BOOK, LONGEST_TAPE as LONGEST_SENT};
use crate::chance::Chance;
use crate::draft::{self, Part, Rule};
use crate::heat::MOST_LANES;
use crate::house;
use crate::record::{self, ARC, LONGEST_WORD, RULE, STATE};
use crate::workspace;

/// One way to stand at a limit: its name, how often, and the call.
pub type Limit = (&'static str, usize, fn(&mut Chance) -> Call);

pub const LIMITS: &[Limit] = &[
    ("16 or 17 rules", 100, |chance| counted(RULE, MOST_RULES, chance)),
    ("64 or 65 states", 100, |chance| counted(STATE, MOST_STATES, chance)),
    ("512 or 513 arcs", 100, |chance| counted(ARC, MOST_ARCS, chance)),
    ("256 or 257 left sets", 80, left_sets),
    ("256 or 257 right sets", 80, right_sets),
    ("eight or nine places", 220, places),
    ("symbol 31 or 32", 80, last_symbols),
    ("4,096 or 4,097 symbols", 60, long_tape),
    ("longest book sent", 30, long_book),
    ("longest output", 40, long_output),
    ("longest account", 20, long_account),
    ("an empty candidate everywhere", 20, every_place),
    ("many candidates", 10, |chance| every_candidate(1, chance)),
    ("most candidates", 1, |chance| every_candidate(MOST_RULES, chance)),
    ("house book", 120, house_tape),
    ("ten or eleven lanes", 60, ten_lanes),
    ("ten longest lanes", 4, longest_lanes),
    ("state number 63 or 64", 60, imports::last_state),
    ("512 or 513 imported arcs", 60, imports::last_arc),
    ("longest text", 20, imports::longest_text),
];

/// From this call on a run goes through the limits in turn, so that a run of some length surely meets each of them;
/// before and after they come by chance.
const FIRST_IN_TURN: u64 = 1000;

pub fn limit_in_turn(number: u64, chance: &mut Chance) -> Option<Call> {
    let turn = number.checked_sub(FIRST_IN_TURN)?;
    LIMITS.get(turn as usize).map(|(_, _, maker)| maker(chance))
}

pub fn limit_call(chance: &mut Chance) -> Call {
    let makers: Vec<_> = LIMITS.iter().map(|(_, weight, maker)| (*weight, *maker)).collect();
    chance.weighted(&makers)(chance)
}

/// A call of a book with everything lent that it needs, unless a length is given otherwise.
fn call_with(book: Vec<u8>, tape: Vec<u8>, chance: &mut Chance) -> Call {
    let operation = chance.pick(&[Operation::Build, Operation::Rewrite, Operation::Account, Operation::Heat]);
    let mut call = Call::new(operation);
    call.book = book;
    call.fill = chance.byte();
    call.lengths.rows = workspace::ROW_BYTES + chance.below(2);
    call.lengths.sets = workspace::SETS + chance.below(2);
    if operation == Operation::Heat {
        call.lanes = heats::over(tape.len(), chance);
    }
    if operation != Operation::Build {
        call.lengths.scratch = tape.len() + 1;
        call.tape = tape;
        lend_results(&mut call, chance);
    }
    call
}

fn lend_results(call: &mut Call, chance: &mut Chance) {
    let all = super::buffers::lengths(call, chance);
    call.lengths = Lengths { out: all.out, origins: all.origins, lines: all.lines, ..call.lengths };
}

fn counted(kind: u8, limit: usize, chance: &mut Chance) -> Call {
    let book = match chance.one_in(2) {
        true => full::filled(kind, limit, chance).concat(),
        false => full::overfilled(kind, chance),
    };
    if chance.one_in(2) {
        let mut call = Call::new(Operation::Check);
        call.book = book;
        return call;
    }
    let alphabet = Alphabet::of(chance);
    let tape = tapes::tape(&[], &alphabet, chance);
    call_with(book, tape, chance)
}

/// A number of sets at 256 or close to it.
fn near_256(chance: &mut Chance) -> Part {
    let sets = chance.weighted(&[(1, 250), (2, 255), (4, 256), (4, 257), (1, 258)]);
    let wide = chance.between(12, 21);
    full::counters(sets, wide, chance)
}

/// The rule with the many sets, and a small one that has something to replace.
fn call_with_sets(many: Rule, chance: &mut Chance) -> Call {
    let small = Rule::new(Part::any(), Part::word(&[1, 2]), Part::any(), &[3]);
    let alphabet = Alphabet::all();
    let tape = tapes::tape(std::slice::from_ref(&small), &alphabet, chance);
    call_with(draft::book(&[many, small]), tape, chance)
}

fn left_sets(chance: &mut Chance) -> Call {
    let many = Rule::idle(near_256(chance), Part::none());
    call_with_sets(many, chance)
}

fn right_sets(chance: &mut Chance) -> Call {
    // The small rule's focus states are in the right sets too; on its own the idle rule has the wanted number.
    let many = Rule::idle(Part::none(), near_256(chance).mirrored());
    if chance.one_in(2) {
        return call_with_sets(many, chance);
    }
    let tape = tapes::tape(&[], &Alphabet::all(), chance);
    call_with(draft::book(&[many]), tape, chance)
}

fn places(chance: &mut Chance) -> Call {
    let mut part = || chance.weighted(&[(1, Part::any()), (2, full::places_before(8)), (3, full::places_before(9))]);
    let (left, right) = (part(), part().mirrored());
    let (left, right) = if chance.one_in(3) { (full::old(left), full::old(right)) } else { (left, right) };
    let tape = tapes::tape(&[], &Alphabet::of(chance), chance);
    let mut call = call_with(draft::book(&[Rule::idle(left, right)]), tape, chance);
    // Several refusals at once, so that their order shows.
    if chance.one_in(2) {
        call.lengths.scratch = call.lengths.scratch.min(call.tape.len());
    }
    call
}

/// Arcs, words and tapes of 15, 16 and 31 alone; every other time a symbol of the book or of the tape spoiled.
fn last_symbols(chance: &mut Chance) -> Call {
    let mut edges = |most: usize| (0..chance.below(most + 1)).map(|_| chance.pick(&EDGES)).collect::<Vec<u8>>();
    let (left, right) = (Part::word(&edges(1)), Part::word(&edges(2)));
    let focus = Part::word(&edges(2)).with_arc(0, HIGHEST_SYMBOL, HIGHEST_SYMBOL, 0);
    let mut records = draft::records(&[Rule::new(left, focus, right, &edges(LONGEST_WORD))]);
    let mut tape = edges(20);
    match chance.below(4) {
        0 => damage::spoil_symbol(&mut records, chance),
        1 => tapes::spoil(&mut tape, chance),
        _ => {}
    }
    call_with(records.concat(), tape, chance)
}

fn repeated(pattern: &[u8], length: usize) -> Vec<u8> {
    pattern.iter().copied().cycle().take(length).collect()
}

fn long_tape(chance: &mut Chance) -> Call {
    let alphabet = Alphabet::of(chance);
    let length = chance.weighted(&[(6, LONGEST_TAPE), (3, LONGEST_TAPE + 1), (1, LONGEST_SENT), (1, LONGEST_TAPE - 1)]);
    let pattern: Vec<u8> = (0..chance.between(1, 200)).map(|_| alphabet.symbol(chance)).collect();
    let mut tape = repeated(&pattern, length);
    if chance.one_in(3) {
        tapes::spoil(&mut tape, chance);
    }
    let word = Part::word(&[alphabet.symbol(chance), alphabet.symbol(chance)]);
    let focus = chance.weighted(&[(2, word.clone()), (1, Part::word(&[])), (1, word.or(&Part::word(&[])))]);
    let left = super::parts::context(&alphabet, chance);
    let right = super::parts::context(&alphabet, chance);
    let rule = Rule::new(left, focus, right, &super::rules::word(&alphabet, chance));
    let mut call = call_with(draft::book(&[rule]), tape, chance);
    if chance.one_in(4) {
        call.lengths.scratch = call.lengths.scratch.saturating_sub(1);
    }
    call
}

/// Bytes after the end record, as many as can be sent, or as many arcs as come before the refusal.
fn long_book(chance: &mut Chance) -> Call {
    let mut book = draft::book(&[Rule::idle(Part::any(), Part::any())]);
    if chance.one_in(2) {
        book.pop();
        while book.len() < LONGEST_BOOK {
            book.extend(record::arc(0, 0, HIGHEST_SYMBOL, 0));
        }
    }
    book.resize(LONGEST_BOOK, record::END);
    let mut call = Call::new(chance.pick(&[Operation::Check, Operation::Build]));
    call.book = book;
    call
}

/// Eight symbols for each of 4,096 or fewer; or each of these kept, and eight symbols at each place.
fn long_output(chance: &mut Chance) -> Call {
    let word: Vec<u8> = (0..8).map(|_| chance.below(SYMBOLS) as u8).collect();
    let fewer = chance.below(40);
    let n = chance.pick(&[LONGEST_TAPE, fewer]);
    let replacing = (Rule::new(Part::any(), Part::word(&[7]), Part::any(), &word), most_replaced(n));
    let (rule, needed) = chance.pick(&[replacing, (full::every_place(&word), most_inserted(n))]);
    let mut call = call_with(draft::book(&[rule]), repeated(&[7], n), chance);
    if call.operation == Operation::Rewrite {
        let mut enough = || needed.saturating_sub(chance.weighted(&[(3, 0), (1, 1)]));
        (call.lengths.out, call.lengths.origins) = (enough(), enough());
    }
    call
}

/// Accounts of about as many words as can be lent: 208 symbols have 21,736 stretches, and 207 have as many with the
/// empty ones; 130,416 words.
fn long_account(chance: &mut Chance) -> Call {
    let length = chance.between(205, 210);
    let rule = chance.pick(&[full::every_stretch(&[1]), full::every_stretch_and_place(&[1])]);
    account_of(draft::book(&[rule]), length, chance)
}

/// The empty candidates of 16 rules at each place: 65,552 on the longest tape, and on one of 1,364 symbols 21,840, for
/// which 131,040 words can be lent.
fn every_place(chance: &mut Chance) -> Call {
    let length = chance.weighted(&[(1, LONGEST_TAPE), (2, 1364), (1, 1363), (1, 1365)]);
    account_of(draft::book(&vec![full::every_place(&[1]); MOST_RULES]), length, chance)
}

/// An account with as many words as it needs, or one word less, or as many as can be lent.
fn account_of(book: Vec<u8>, length: usize, chance: &mut Chance) -> Call {
    let mut call = Call::new(Operation::Account);
    call.book = book;
    call.tape = (0..length).map(|_| chance.below(SYMBOLS) as u8).collect();
    call.fill = chance.byte();
    let (rows, sets) = (workspace::ROW_BYTES, workspace::SETS);
    let lines = super::buffers::needed(&call).min(crate::call::MOST_LINE_WORDS) - chance.below(2);
    call.lengths = Lengths { rows, sets, scratch: length + 1, lines, ..Lengths::default() };
    call
}

/// Every stretch of the longest tape for each rule: with 16 rules 134,250,496 candidates, and with the empty ones
/// 134,316,048.
fn every_candidate(rules: usize, chance: &mut Chance) -> Call {
    let mut call = Call::new(Operation::Account);
    let rule = chance.pick(&[full::every_stretch(&[]), full::every_stretch_and_place(&[])]);
    call.book = draft::book(&vec![rule; rules]);
    call.tape = repeated(&[1, 2], LONGEST_TAPE);
    let (rows, sets) = (workspace::ROW_BYTES, workspace::SETS);
    let lines = chance.pick(&[0, WORDS_A_LINE, crate::call::MOST_LINE_WORDS]);
    call.lengths = Lengths { rows, sets, scratch: LONGEST_TAPE + 1, lines, ..Lengths::default() };
    call
}

fn house_tape(chance: &mut Chance) -> Call {
    let tape = tapes::tape(&house::rules(), &Alphabet::of(chance), chance);
    call_with(house::book(), tape, chance)
}

fn ten_lanes(chance: &mut Chance) -> Call {
    let lanes = MOST_LANES + chance.below(2);
    let mut call = Call::new(Operation::Heat);
    call.book = house::book();
    call.fill = chance.byte();
    (call.tape, call.lanes) = heats::heat(lanes, &house::rules(), &Alphabet::of(chance), chance);
    call.lengths = super::buffers::lengths(&call, chance);
    call
}

/// Ten tapes of 4,096 symbols, and as much room as they need, or one symbol less.
fn longest_lanes(chance: &mut Chance) -> Call {
    let (rule, pattern) = (Rule::new(Part::any(), Part::word(&[1, 2]), Part::any(), &[3]), [1, 2, 2, 1]);
    let mut call = Call::new(Operation::Heat);
    call.book = draft::book(&[rule]);
    call.tape = repeated(&pattern, MOST_LANES * LONGEST_TAPE);
    let length = LONGEST_TAPE as u64;
    call.lanes = (0..MOST_LANES as u64).map(|at| Lane { start: at * length, length }).collect();
    let (rows, sets) = (workspace::ROW_BYTES, workspace::SETS);
    let needed: usize = super::buffers::needed_by_lanes(&call).iter().sum();
    let (out, origins) = (needed - chance.below(2), needed - chance.below(2));
    call.lengths = Lengths { rows, sets, scratch: LONGEST_TAPE + 1, out, origins, lines: 0 };
    call
}
