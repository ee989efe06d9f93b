//! The smallest failing case that can be found from a failing one.

use crate::call::{Call, Lane, Lengths, Operation};
use crate::generate::buffers::{lane_tapes, needed, needed_by_lanes};
use crate::generate::imports;
use crate::record::{self, ARC, RULE, STATE};
use crate::workspace;

/// Tells which call of a list is the first to fail, if any does.
pub type FirstFailing<'a> = &'a mut dyn FnMut(&[Call]) -> Option<usize>;

/// How many calls are tried at a time, and how many steps are taken at most.
const TRIED_AT_ONCE: usize = 64;
const MOST_STEPS: usize = 400;

/// Makes a failing call smaller, step by step, as long as something smaller still fails.
pub fn shrink(call: Call, first_failing: FirstFailing) -> Call {
    let mut smallest = call;
    let mut from = 0;
    for _ in 0..MOST_STEPS {
        let Some((next, at)) = one_step(&smallest, from, first_failing) else { break };
        smallest = next;
        from = at;
    }
    smallest
}

/// The first smaller call that fails, and where it stood among those tried. What did not help a step ago seldom helps
/// now, so the search goes on from there and comes round to the front last.
fn one_step(call: &Call, from: usize, first_failing: FirstFailing) -> Option<(Call, usize)> {
    let size = size(call);
    let tries = smaller(call);
    let order: Vec<usize> = (0..tries.len()).map(|at| (at + from) % tries.len()).collect();
    for numbers in order.chunks(TRIED_AT_ONCE) {
        let made = numbers.iter().map(|number| (tries[*number]().lent_alone(), *number));
        let (calls, numbers): (Vec<Call>, Vec<usize>) = made.filter(|(tried, _)| self::size(tried) < size).unzip();
        if let Some(at) = first_failing(&calls) {
            return Some((calls[at].clone(), numbers[at]));
        }
    }
    None
}

/// What a reader of the case has to take in; every step lessens it.
fn size(call: &Call) -> usize {
    let Lengths { rows, sets, scratch, out, origins, lines } = call.lengths;
    let lengths = [rows.abs_diff(workspace::ROW_BYTES), sets.abs_diff(workspace::SETS), scratch, out, origins, lines];
    let not = |plain: u8, bytes: &[u8]| bytes.iter().filter(|byte| **byte != plain).count();
    let (plain, line) = match call.operation {
        Operation::Import => (b'0', weight(call.part() as usize) + weight(call.first() as usize)),
        _ => (0, weight(call.line as usize)),
    };
    let lanes = call.lanes.iter().flat_map(|lane| [lane.start, lane.length]);
    100 * (call.book.len() + call.tape.len() + call.account.len() + call.lanes.len())
        + lengths.into_iter().map(weight).sum::<usize>()
        + call.account.iter().map(|word| weight(*word as usize)).sum::<usize>()
        + lanes.map(|number| weight(number as usize)).sum::<usize>()
        + not(0, &call.tape)
        + not(plain, &call.book)
        + line
        + usize::from(call.fill != 0)
}

fn weight(length: usize) -> usize {
    if length < 64 {
        length
    } else {
        64 + length.ilog2() as usize
    }
}

/// A smaller call, made when it is tried.
type Try<'a> = Box<dyn Fn() -> Call + 'a>;

/// Calls with something left out or made plainer, the largest steps first.
fn smaller(call: &Call) -> Vec<Try<'_>> {
    let was = needed_by(call);
    let books = match call.operation {
        Operation::Import => smaller_texts(&call.book),
        _ => smaller_books(&call.book),
    };
    let books = books.into_iter().map(|book| Call { book, ..call.clone() });
    let tapes = smaller_lists(&call.tape).into_iter().map(|tape| Call { tape, ..call.clone() });
    let mut tries: Vec<Try> = Vec::new();
    for changed in smaller_heats(call).into_iter().chain(books).chain(tapes) {
        let again = changed.clone();
        tries.push(Box::new(move || lent_again(call, was, &again)));
        tries.push(Box::new(move || changed.clone()));
    }
    let accounts = smaller_lists(&call.account).into_iter().map(|account| Call { account, ..call.clone() });
    let lengths = smaller_lengths(call, was).into_iter().map(|lengths| Call { lengths, ..call.clone() });
    let lines = smaller_lines(call).into_iter().map(|line| Call { line, ..call.clone() });
    let filled = Call { fill: 0, ..call.clone() };
    for plainer in accounts.chain(lengths).chain(lines).chain([filled]) {
        tries.push(Box::new(move || plainer.clone()));
    }
    tries
}

fn needed_by(call: &Call) -> usize {
    match call.operation {
        Operation::Rewrite | Operation::Account => needed(call),
        Operation::Heat => needed_by_lanes(call).iter().sum(),
        Operation::Import => imports::needed(call),
        _ => 0,
    }
}

/// The longest tape that is given scratch.
fn longest_tape(call: &Call) -> usize {
    match call.operation {
        Operation::Heat => lane_tapes(call).iter().map(|tape| tape.len()).max().unwrap_or(0),
        _ => call.tape.len(),
    }
}

/// A changed call with every buffer as much too short or too long as it was before.
fn lent_again(before: &Call, was: usize, changed: &Call) -> Call {
    let is = needed_by(changed);
    let moved = |length: usize, was: usize, is: usize| (length + is).saturating_sub(was).min(length);
    let lengths = Lengths {
        scratch: moved(before.lengths.scratch, longest_tape(before), longest_tape(changed)),
        out: moved(before.lengths.out, was, is),
        origins: moved(before.lengths.origins, was, is),
        lines: moved(before.lengths.lines, was, is),
        ..before.lengths
    };
    Call { lengths, ..changed.clone() }
}

fn smaller_lengths(call: &Call, exact: usize) -> Vec<Lengths> {
    let lengths = call.lengths;
    let mut all = vec![
        Lengths { rows: workspace::ROW_BYTES, ..lengths },
        Lengths { sets: workspace::SETS, ..lengths },
        Lengths { rows: lengths.rows.saturating_sub(1), ..lengths },
        Lengths { sets: lengths.sets.saturating_sub(1), ..lengths },
    ];
    for scratch in [0, longest_tape(call) + 1, lengths.scratch.saturating_sub(1)] {
        all.push(Lengths { scratch, ..lengths });
    }
    for shorter in [0, exact, exact.saturating_sub(1)] {
        all.push(Lengths { out: shorter, ..lengths });
        all.push(Lengths { origins: shorter, ..lengths });
        all.push(Lengths { lines: shorter, ..lengths });
    }
    all
}

/// A smaller line of SHOW; for IMPORT a smaller part, or a smaller first number.
fn smaller_lines(call: &Call) -> Vec<u32> {
    let less = |number: u32| [0, number / 2, number.saturating_sub(1)];
    if call.operation != Operation::Import {
        return less(call.line).to_vec();
    }
    let (part, first) = (u32::from(call.part()), u32::from(call.first()));
    let parts = less(part).map(|part| part + 256 * first);
    [parts, less(first).map(|first| part + 256 * first)].concat()
}

/// A heat of one lane's tape alone; then with lanes left out, with symbols left out, or with a lane's numbers smaller.
fn smaller_heats(call: &Call) -> Vec<Call> {
    let with = |lanes: Vec<Lane>| Call { lanes, ..call.clone() };
    let alone = |tape: &[u8]| Call { tape: tape.to_vec(), ..with(vec![Lane { start: 0, length: tape.len() as u64 }]) };
    let mut smaller: Vec<Call> = lane_tapes(call).into_iter().map(alone).collect();
    smaller.extend(smaller_lists(&call.lanes).into_iter().map(with));
    if !call.lanes.is_empty() {
        smaller.extend(parts(call.tape.len()).into_iter().map(|part| without_symbols(call, part)));
    }
    for (at, Lane { start, length }) in call.lanes.iter().copied().enumerate() {
        let less = |number: u64| [number / 2, number.saturating_sub(1)];
        let starts = less(start).map(|start| Lane { start, length });
        for lane in starts.into_iter().chain(less(length).map(|length| Lane { start, length })) {
            let mut lanes = call.lanes.clone();
            lanes[at] = lane;
            smaller.push(with(lanes));
        }
    }
    smaller
}

/// The common buffer without these symbols; what stands after them moves down, and lanes move with it.
fn without_symbols(call: &Call, (from, to): (usize, usize)) -> Call {
    let moved = |position: u128| match position {
        position if position >= to as u128 => position - (to - from) as u128,
        position => position.min(from as u128),
    };
    let moved_lane = |lane: &Lane| {
        let (start, end) = (u128::from(lane.start), u128::from(lane.start) + u128::from(lane.length));
        Lane { start: moved(start) as u64, length: (moved(end) - moved(start)) as u64 }
    };
    let tape = [&call.tape[..from], &call.tape[to..]].concat();
    Call { tape, lanes: call.lanes.iter().map(moved_lane).collect(), ..call.clone() }
}

/// The bounds of parts of a list that may be left out, the largest first, at most so many of one length.
pub fn parts(length: usize) -> Vec<(usize, usize)> {
    let mut parts = Vec::new();
    let mut part = length;
    while part > 0 && length / part <= TRIED_AT_ONCE {
        parts.extend((0..length).step_by(part).map(|from| (from, (from + part).min(length))));
        part /= 2;
    }
    parts
}

/// A list without a part of it; then with one element made 0.
pub fn smaller_lists<T: Copy + Default + PartialEq>(list: &[T]) -> Vec<Vec<T>> {
    let left_out = |(from, to): (usize, usize)| [&list[..from], &list[to..]].concat();
    let mut smaller: Vec<Vec<T>> = parts(list.len()).into_iter().map(left_out).collect();
    for at in (0..list.len().min(TRIED_AT_ONCE)).filter(|at| list[*at] != T::default()) {
        let mut plainer = list.to_vec();
        plainer[at] = T::default();
        smaller.push(plainer);
    }
    smaller
}

/// A book without some of its records or bytes; then with a record made plainer.
pub fn smaller_books(book: &[u8]) -> Vec<Vec<u8>> {
    let pieces = record::pieces(book);
    let few = pieces.len().min(TRIED_AT_ONCE);
    let mut smaller: Vec<Vec<u8>> = whole_rules(&pieces).into_iter().map(|part| without(&pieces, part)).collect();
    smaller.extend(parts(pieces.len()).into_iter().map(|part| without(&pieces, part)));
    smaller.extend((0..few).map(|at| [&pieces[..at], &pieces[at + 1..]].concat().concat()));
    smaller.extend(parts(book.len()).into_iter().map(|(from, _)| book[..from].to_vec()));
    for at in 0..few {
        for plainer in plainer_pieces(&pieces[at]) {
            smaller.push([&pieces[..at], &[plainer], &pieces[at + 1..]].concat().concat());
        }
    }
    smaller
}

/// A text without some of its lines or bytes; then with a byte made 0, the digit.
fn smaller_texts(text: &[u8]) -> Vec<Vec<u8>> {
    let lines: Vec<&[u8]> = text.split_inclusive(|byte| *byte == b'\n').collect();
    let left_out = |(from, to): (usize, usize)| [&text[..from], &text[to..]].concat();
    let mut smaller: Vec<Vec<u8>> = Vec::new();
    smaller.extend(parts(lines.len()).into_iter().map(|(from, to)| [&lines[..from], &lines[to..]].concat().concat()));
    smaller.extend(parts(text.len()).into_iter().map(left_out));
    smaller.extend((0..text.len().min(TRIED_AT_ONCE)).map(|at| [&text[..at], b"0", &text[at + 1..]].concat()));
    smaller
}

/// The bounds of each rule with all its states and arcs.
fn whole_rules(pieces: &[Vec<u8>]) -> Vec<(usize, usize)> {
    let begins = |at: &usize| pieces[*at][0] == RULE;
    let next = |from: usize| (from + 1..pieces.len()).find(|at| begins(at) || pieces[*at][0] == record::END);
    (0..pieces.len()).filter(begins).map(|from| (from, next(from).unwrap_or(pieces.len()))).collect()
}

/// The book without these records; states after them move down, and arcs that name a lost state go too.
fn without(pieces: &[Vec<u8>], (from, to): (usize, usize)) -> Vec<u8> {
    let states = |pieces: &[Vec<u8>]| pieces.iter().filter(|piece| piece[0] == STATE).count();
    let (first, lost) = (states(&pieces[..from]), states(&pieces[from..to]));
    let mut kept = Vec::new();
    for piece in pieces[..from].iter().chain(&pieces[to..]) {
        let mut piece = piece.clone();
        if piece[0] == ARC && piece.len() == 5 {
            let named = [piece[1] as usize, piece[4] as usize];
            if named.iter().any(|state| (first..first + lost).contains(state)) {
                continue;
            }
            for field in [1, 4] {
                piece[field] -= if piece[field] as usize >= first + lost { lost as u8 } else { 0 };
            }
        }
        kept.push(piece);
    }
    kept.concat()
}

/// A record with one of its fields made 0, or its word shorter.
fn plainer_pieces(piece: &[u8]) -> Vec<Vec<u8>> {
    let mut plainer = Vec::new();
    if let [RULE, 1..=8, ..] = piece {
        let mut shorter = piece.to_vec();
        shorter[1] -= 1;
        if let Some(symbol) = shorter.get_mut(1 + piece[1] as usize) {
            *symbol = 0;
        }
        plainer.push(shorter);
    }
    for field in (1..piece.len()).filter(|field| piece[*field] != 0) {
        let mut zeroed = piece.to_vec();
        zeroed[field] = 0;
        plainer.push(zeroed);
    }
    plainer
}
