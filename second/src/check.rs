//! `second check`: random calls through a door, compared with the reference.

use std::io;
use std::slice::from_ref;

use crate::call::Call;
use crate::command::Command;
use crate::comparison::{compare, Difference};
use crate::generate::calls::call;
use crate::hex;
use crate::shrink::shrink;
use crate::tally::{Tally, WHOLE_RUN};

/// Calls sent to one run of the door.
const CALLS_A_RUN: u64 = 500;

/// Compares `count` calls; true if all agree. The last line printed says how many were compared.
pub fn check(door: &Command, seed: u64, count: u64) -> io::Result<bool> {
    println!("seed {seed}, {count} calls, door: {}", door.line());
    let mut tally = Tally::default();
    let mut first = 0;
    while first < count {
        let calls: Vec<Call> = (first..count.min(first + CALLS_A_RUN)).map(|number| call(seed, number)).collect();
        let comparison = compare(door, &calls)?;
        if let Some(difference) = comparison.difference {
            let passed = first + difference.at as u64;
            println!("call {passed} of seed {seed} differs: {}", difference.words);
            report_smallest(door, calls[difference.at].clone(), difference)?;
            println!("{passed} passed, 1 failed");
            return Ok(false);
        }
        comparison.expected.iter().for_each(|answer| tally.add(answer));
        first += calls.len() as u64;
    }
    print!("{}", tally.table());
    let never_met = if count >= WHOLE_RUN { tally.never_met() } else { Vec::new() };
    never_met.iter().for_each(|what| println!("never met: {what}"));
    println!("{count} passed, {} failed", never_met.len());
    Ok(never_met.is_empty())
}

fn report_smallest(door: &Command, failing: Call, difference: Difference) -> io::Result<()> {
    let mut differs = |calls: &[Call]| {
        let comparison = compare(door, calls).ok()?;
        comparison.difference.map(|difference| difference.at)
    };
    // A call that fails only after others is printed as it stands.
    let smallest = match differs(from_ref(&failing)) {
        Some(_) => shrink(failing, &mut differs),
        None => failing,
    };
    let words = compare(door, from_ref(&smallest))?.difference.map_or(difference.words, |difference| difference.words);
    println!("smallest case found: {}{words}", smallest.in_words());
    println!("repeat it with: second one --door \"{}\" {}", door.line(), hex::of(&smallest.to_bytes()));
    Ok(())
}

/// `second one` and `second call`: one call again, with both answers.
pub fn one(door: &Command, call: &Call) -> io::Result<bool> {
    let comparison = compare(door, from_ref(call))?;
    let expected = &comparison.expected[0];
    print!("{}", call.in_words());
    println!("expected reply {}, place {}, counts {:?}", expected.reply, expected.place, expected.counts);
    expected.lent.lanes.iter().for_each(|lane| println!("expected {lane:?}"));
    let failed = comparison.difference.map(|difference| println!("differs: {}", difference.words)).is_some();
    println!("{} passed, {} failed", u8::from(!failed), u8::from(failed));
    Ok(!failed)
}
