//! Call number so-and-so of a run with a seed.

use super::alphabet::Alphabet;
use super::{accounts, buffers, damage, heats, imported, imports, limits, rules, tapes};
use crate::admission::LONGEST_TAPE;
use crate::call::{Call, Operation};
use crate::chance::Chance;

pub fn call(seed: u64, number: u64) -> Call {
    let chance = &mut Chance::of(seed, number);
    if let Some(call) = limits::limit_in_turn(number, chance) {
        return call.within_limits();
    }
    let call = match chance.weighted(&[(8, 0), (12, 1), (18, 2), (80, 3)]) {
        0 => limits::limit_call(chance),
        1 => accounts::show_call(chance),
        2 => imports::import_call(chance),
        _ => ordinary_call(chance),
    };
    call.within_limits()
}

fn ordinary_call(chance: &mut Chance) -> Call {
    let operation = chance.weighted(&[
        (16, Operation::Check),
        (16, Operation::Build),
        (28, Operation::Rewrite),
        (28, Operation::Account),
        (22, Operation::Heat),
    ]);
    let alphabet = Alphabet::of(chance);
    let mut rules = rules::rules(&alphabet, chance);
    // So that an old book meets a new tape, and a new book an old one.
    let of_tape = if chance.one_in(6) { Alphabet::of(chance) } else { alphabet.clone() };
    let records = imported::records_of(&mut rules, &alphabet, chance);
    let damaged = match operation {
        Operation::Check => chance.below(10) < 8,
        // So that too many lanes often meet a damaged book.
        Operation::Heat => chance.one_in(4),
        _ => chance.one_in(7),
    };
    let mut call = Call::new(operation);
    call.fill = chance.weighted(&[(1, 0), (1, 255), (1, 1), (3, 170)]);
    if call.fill == 170 {
        call.fill = chance.byte();
    }
    call.book = if damaged { damage::damaged(records, chance) } else { records.concat() };
    if matches!(operation, Operation::Rewrite | Operation::Account) {
        call.tape = tapes::tape(&rules, &of_tape, chance);
        if chance.one_in(14) {
            tapes::spoil(&mut call.tape, chance);
        }
        if chance.one_in(100) {
            call.tape.resize(LONGEST_TAPE + chance.between(1, 3), 0);
        }
    }
    if operation == Operation::Heat {
        (call.tape, call.lanes) = heats::heat(heats::count(chance), &rules, &of_tape, chance);
    }
    call.lengths = buffers::lengths(&call, chance);
    call
}
