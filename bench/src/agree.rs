//! Before anything is timed: the contestants give the same answers and leave the same buffers. A difference ends the run.

use crate::alphabet::Alphabet;
use crate::answer::{Heated, Lane, LANES, LINE, LONGEST_OUT, ROW_BYTES, SYMBOLS, TAPE};
use crate::chance::Chance;
use crate::heats::{lane, Heat};
use crate::lent::Lent;
use crate::pcre2::Pattern;
use crate::{books, foma, pcre2, plain, proved, tapes};
use std::collections::HashSet;

/// Every operation of one tape but SHOW, on both sides, with buffers of the same old content.
fn on(book: &[u8], tape: &[u8], lines: usize, out: usize) {
    let lent = || {
        let mut lent = Lent::for_lines(lines);
        lent.out.truncate(out);
        lent
    };
    let (mut one, mut other) = (lent(), lent());
    assert_eq!(proved::check(book), plain::check(book), "CHECK of {book:?}");
    assert_eq!(proved::build(book, &mut one), plain::build(book, &mut other), "BUILD of {book:?}");
    assert!(one == other, "the workspace after BUILD of {book:?}");
    let (mut one, mut other) = (lent(), lent());
    assert_eq!(proved::rewrite(book, tape, &mut one), plain::rewrite(book, tape, &mut other), "{book:?} on {tape:?}");
    assert!(one == other, "the buffers after REWRITE of {tape:?} by {book:?}");
    let (mut one, mut other) = (lent(), lent());
    assert_eq!(proved::account(book, tape, &mut one), plain::account(book, tape, &mut other), "{book:?} on {tape:?}");
    assert!(one == other, "the buffers after ACCOUNT of {tape:?} by {book:?}");
}

/// With room for everything that a tape of this book can have.
pub fn on_whole(book: &[u8], tape: &[u8]) {
    let mut none = Lent::for_lines(0);
    let needed = proved::account(book, tape, &mut none).place;
    on(book, tape, needed / LINE, LONGEST_OUT);
}

/// Books with a few bytes changed, so that every reply is met, on short tapes with little room.
pub fn on_damaged(cases: usize, chance: &mut Chance) {
    let whole = [
        books::house(),
        books::turn(),
        books::full_sets(Alphabet::WHOLE),
        books::dense(Alphabet::WHOLE, chance),
        books::lap(),
        books::inserted_lengths(),
        books::every_place(),
    ];
    for case in 0..cases {
        let mut book = whole[case % whole.len()].clone();
        for _ in 0..chance.below(4) {
            let at = chance.below(book.len());
            book[at] = chance.below(SYMBOLS + 2) as u8;
        }
        if chance.below(8) == 0 {
            book.truncate(chance.below(book.len()));
        }
        let length = chance.below(24);
        let tape = if chance.below(2) == 0 {
            tapes::pool(chance)[..length].to_vec()
        } else {
            tapes::random(length, Alphabet::WHOLE, chance)
        };
        on(&book, &tape, chance.below(20), chance.below(60));
        let lanes: Vec<Lane> = (0..chance.below(LANES + 2)).map(|_| some_lane(length, chance)).collect();
        let (out, scratch) = (chance.below(60), chance.below(24));
        on_lanes(&book, &tape, &lanes, || with_room(out, scratch));
    }
}

/// A lane of a common buffer. Some end right behind it, and of some the sum of start and length wraps.
fn some_lane(symbols: usize, chance: &mut Chance) -> Lane {
    let start = chance.below(symbols + 1);
    let inside = symbols - start;
    match chance.below(8) {
        0 => lane(start, inside + 1),
        1 => lane(start + 1, usize::MAX - chance.below(start + 1)),
        _ => lane(start, chance.below(inside + 1)),
    }
}

/// Enough for every heat, but for an output and a scratch of those lengths.
fn with_room(out: usize, scratch: usize) -> Lent {
    let mut lent = Lent::for_lines(0);
    lent.out.truncate(out);
    lent.scratch.truncate(scratch);
    lent
}

/// HEAT on both sides, with lanes and buffers of the same old content; where it is accepted, BUILD and then REWRITE lane by lane leave the
/// same. Its reply, and those of the lanes.
fn on_lanes(book: &[u8], tapes: &[u8], lanes: &[Lane], lent: impl Fn() -> Lent) -> (u8, Vec<u8>) {
    let left_by = |call: &dyn Fn(&mut [Lane], &mut Lent) -> Heated| {
        let (mut lanes, mut lent) = (lanes.to_vec(), lent());
        (call(&mut lanes, &mut lent), lanes, lent)
    };
    let (heated, ours, one) = left_by(&|lanes, lent| proved::heat(book, tapes, lanes, lent));
    let same = |(answer, theirs, other): (Heated, Vec<Lane>, Lent)| {
        assert_eq!(heated, answer, "HEAT of {lanes:?} by {book:?}");
        assert_eq!(ours, theirs, "the lanes after HEAT by {book:?}");
        assert!(one == other, "the buffers after HEAT of {lanes:?} by {book:?}");
    };
    same(left_by(&|lanes, lent| plain::heat(book, tapes, lanes, lent)));
    if heated.reply == 0 {
        same(left_by(&|lanes, lent| {
            proved::build(book, lent);
            proved::rewrites(book, tapes, lanes, lent);
            heated
        }));
    }
    (heated.reply, ours.iter().map(|lane| lane.reply).collect())
}

/// A heat with room for everything: all lanes are accepted.
pub fn on_heat(book: &[u8], heat: &Heat) {
    let replies = on_lanes(book, &heat.tapes, &heat.lanes, || Lent::for_lanes(LANES));
    assert_eq!(replies, (0, vec![0; LANES]), "a heat of which nothing is refused, by {book:?}");
}

/// Lanes of each refusal among others that are accepted; then no lane, an eleventh one, and a workspace that is too short.
pub fn on_refused(book: &[u8], tapes: &[Vec<u8>]) {
    const PIECE: usize = 64;
    const OUT: usize = 400; // enough for three pieces by words of two symbols, too little for the lane of 15
    const SCRATCH: usize = 1024;
    let mut common = tapes.concat();
    common.push(SYMBOLS as u8);
    let end = common.len();
    let lanes = [
        (lane(0, PIECE), 0),
        (lane(end - 1, 2), 17),
        (lane(PIECE, usize::MAX), 17), // the sum wraps
        (lane(end - PIECE, PIECE), 10),
        (lane(0, TAPE + 1), 9),
        (lane(0, SCRATCH), 12),
        (lane(0, SCRATCH - 1), 15),
        (lane(PIECE, PIECE), 0),
        (lane(end, 0), 0),
        (lane(PIECE / 2, PIECE), 0), // over two others
    ];
    let (mut lanes, replies): (Vec<Lane>, Vec<u8>) = lanes.into_iter().unzip();
    let lent = || with_room(OUT, SCRATCH);
    assert_eq!(on_lanes(book, &common, &lanes, lent), (0, replies), "a lane of each refusal, by {book:?}");
    assert_eq!(on_lanes(book, &common, &[], lent), (0, vec![]), "a heat without a lane, by {book:?}");
    let short = || {
        let mut lent = lent();
        lent.rows.truncate(ROW_BYTES - 1);
        lent
    };
    assert_eq!(on_lanes(book, &common, &lanes, short).0, 11, "a heat with a short workspace, by {book:?}");
    lanes.push(lane(0, 0));
    assert_eq!(on_lanes(book, &common, &lanes, short).0, 16, "a heat of eleven lanes, by {book:?}");
}

/// PCRE2's pattern for a book gives the book's outputs and origins.
pub fn with_pattern(book: &[u8], pattern: pcre2::Book, tape: &[u8]) {
    let (mut one, mut other) = (Lent::for_lines(0), Lent::for_lines(0));
    let length = proved::rewrite(book, tape, &mut one).length;
    assert_eq!(length, Pattern::compile(pattern).substitute(tape, &mut other), "PCRE2 on {tape:?}");
    assert!(one.out == other.out && one.origins == other.origins, "PCRE2's output of {tape:?}");
}

/// foma's rule gives the turn's outputs.
pub fn with_foma(tape: &[u8]) {
    let mut lent = Lent::for_lines(0);
    let length = proved::rewrite(&books::turn(), tape, &mut lent).length;
    assert_eq!(lent.out[..length], foma::Turn::compile().output(tape), "foma on {tape:?}");
}

/// The book's focus sets on the walk from the front of the tape: each of the same size, and no two alike.
pub fn never_alike(book: &[u8], tape: &[u8]) {
    let sets = plain::focus_sets(book, tape);
    assert!(sets.len() == tape.len() && sets.iter().all(|set| set.count_ones() as usize == books::HELD));
    let different: HashSet<u64> = sets.iter().copied().collect();
    assert_eq!(different.len(), sets.len(), "focus sets that never come again");
}
