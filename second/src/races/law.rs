//! The law, held against the answers to a case's calls: document 02, No. 8.

use super::case::{Case, CALLS};
use crate::account::Line;
use crate::answer::{Answer, Lent};
use crate::call::Operation;

/// How the answers break the law, in words, if they do. They stand in the order of the calls.
pub fn difference(case: &Case, answers: &[Answer]) -> Option<String> {
    let [rewriting, account, first_rewriting, first_account, second_rewriting, second_account] = answers else {
        panic!("{} answers, not {CALLS}", answers.len())
    };
    differs(case, rewriting, [first_rewriting, second_rewriting])
        .or_else(|| differs(case, account, [first_account, second_account]))
}

fn differs(case: &Case, joined: &Answer, alone: [&Answer; 2]) -> Option<String> {
    // "Premise: the call on the joined tape is accepted."
    if joined.reply != 0 {
        return None;
    }
    let name = joined.operation.name();
    if let Some((which, refused)) = ["first", "second"].into_iter().zip(alone).find(|(_, alone)| alone.reply != 0) {
        return Some(format!("{name} of the {which} tape is refused with {}, place {}", refused.reply, refused.place));
    }
    let expected = match joined.operation {
        Operation::Rewrite => rewriting(case, joined, alone),
        _ => account(case, joined, alone),
    };
    expected.difference(joined).map(|words| format!("{name} of the joined tape, by those of the two: {words}"))
}

/// "the first rewriting, the symbol, and the second rewriting, with the second's origins moved on by the first tape's
/// length and one"
fn rewriting(case: &Case, joined: &Answer, [first, second]: [&Answer; 2]) -> Answer {
    let symbols = [first.symbols(), &[case.marker], second.symbols()].concat();
    let moved: Vec<u16> = second.origins().iter().map(|origin| origin.wrapping_add(case.moved())).collect();
    let origins = [first.origins(), &[case.first.len() as u16], &moved].concat();
    let [length, taken] = [0, 1].map(|count| first.counts[count].wrapping_add(second.counts[count]));
    let (out, origins) = (over(&joined.lent.out, symbols), over(&joined.lent.origins, origins));
    let lent = Lent { out, origins, ..joined.lent.clone() };
    Answer { counts: [length.wrapping_add(1), taken, 0, 0], lent, ..joined.clone() }
}

/// "The accounts join the same way, their positions moved alike."
fn account(case: &Case, joined: &Answer, [first, second]: [&Answer; 2]) -> Answer {
    let moved = |[rule, start, end, verdict, deciding_start, deciding_rule]: Line| {
        let [start, end, deciding_start] = [start, end, deciding_start].map(|word| word.wrapping_add(case.moved()));
        [rule, start, end, verdict, deciding_start, deciding_rule]
    };
    let lines: Vec<Line> = first.account().into_iter().chain(second.account().into_iter().map(moved)).collect();
    let lent = Lent { lines: over(&joined.lent.lines, lines.concat()), ..joined.lent.clone() };
    Answer { counts: [first.counts[0].wrapping_add(second.counts[0]), 0, 0, 0], lent, ..joined.clone() }
}

/// A buffer with this written over its front.
fn over<T: Copy>(buffer: &[T], front: Vec<T>) -> Vec<T> {
    [&front[..], buffer.get(front.len()..).unwrap_or_default()].concat()
}
