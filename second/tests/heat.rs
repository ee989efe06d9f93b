//! HEAT: document 02, No. 2, by hand, and held against BUILD and one REWRITE after another; outputs and origins as
//! No. 4 and No. 5 have them.

use second::answer::{Answer, LaneRecord, Lent};
use second::call::{Call, Lane, Lengths, Operation};
use second::chance::Chance;
use second::draft::{self, Part, Rule};
use second::generate::alphabet::Alphabet;
use second::generate::calls::call;
use second::generate::{full, rules, tapes};
use second::operations::answer;
use second::reading::Reading;
use second::{hand, house};

fn lanes(bounds: &[(u64, u64)]) -> Vec<Lane> {
    bounds.iter().map(|(start, length)| Lane { start: *start, length: *length }).collect()
}

/// A heat with room for everything, and a little more of each.
fn heat(book: Vec<u8>, tape: &[u8], bounds: &[(u64, u64)]) -> Call {
    let mut call = Call::new(Operation::Heat);
    call.fill = 0x5a;
    call.book = book;
    call.tape = tape.to_vec();
    call.lanes = lanes(bounds);
    call.lengths = Lengths { rows: 16_387, sets: 514, scratch: 20, out: 40, origins: 41, lines: 0 };
    call
}

fn heated(call: &Call) -> Answer {
    answer(call, Reading::TRUE)
}

/// What each lane got: output length, stretches taken, reply, place.
fn got(answer: &Answer) -> Vec<(u64, u64, u8, u64)> {
    let got = |lane: &LaneRecord| (lane.out, lane.taken, lane.reply, lane.place);
    answer.lent.lanes.iter().map(got).collect()
}

/// The call replies 0, and its lanes got this; their start and length are as they were.
fn lanes_get(call: &Call, expected: &[(u64, u64, u8, u64)]) {
    let answer = heated(call);
    assert_eq!((answer.reply, answer.place, answer.counts), (0, 0, [0; 4]));
    assert_eq!(got(&answer), expected);
    let said = answer.lent.lanes.iter().map(|lane| Lane { start: lane.start, length: lane.length });
    assert_eq!(said.collect::<Vec<_>>(), call.lanes);
}

/// A book of one rule: symbol 1 to `word`, between any contexts.
fn one_to(word: &[u8]) -> Vec<u8> {
    draft::book(&[Rule::new(Part::any(), Part::word(&[1]), Part::any(), word)])
}

/// Cases 1 to 7 of document 01. In the common buffer 240 is followed by two quiet symbols, but its lane ends before.
#[test]
fn cases_of_the_house_book_in_one_heat() {
    // Tape, output, origins, stretches taken.
    type Case<'a> = (&'a [u8], &'a [u8], &'a [u16], u64);
    let cases: [Case; 7] = [
        (&[1, 2, 4, 0, 0], &[1, 10, 0, 0], &[0, 1, 3, 4], 1),
        (&[2, 4, 0], &[2, 4, 0], &[0, 1, 2], 0),
        (&[0, 2, 3, 3, 4, 5], &[0, 8, 5], &[0, 1, 5], 1),
        (&[2, 4, 0, 0], &[9, 0, 0], &[0, 2, 3], 1),
        (&[], &[], &[], 0),
        (&[1, 2, 4, 2, 4, 0, 0], &[1, 10, 9, 0, 0], &[0, 1, 3, 5, 6], 2),
        (&[2, 4, 2, 4, 5], &[2, 4, 8, 5], &[0, 1, 2, 4], 1),
    ];
    let mut call = heat(house::book(), &[], &[]);
    let (mut out, mut origins, mut expected) = (Vec::new(), Vec::new(), Vec::new());
    for (tape, output, places, taken) in cases {
        call.lanes.push(Lane { start: call.tape.len() as u64, length: tape.len() as u64 });
        call.tape.extend(tape);
        out.extend(output);
        origins.extend(places);
        expected.push((output.len() as u64, taken, 0, 0));
    }
    lanes_get(&call, &expected);
    let Lent { out: written, origins: places, .. } = heated(&call).lent;
    out.resize(40, 0x5a);
    origins.resize(41, 0x5a5a);
    assert_eq!((written, places), (out, origins));
}

#[test]
fn lanes_overlap_and_stand_in_any_order() {
    let call = heat(one_to(&[7, 7]), &[1, 0, 2, 1], &[(2, 2), (0, 4), (3, 1), (3, 1)]);
    lanes_get(&call, &[(3, 1, 0, 0), (6, 2, 0, 0), (2, 1, 0, 0), (2, 1, 0, 0)]);
    let lent = heated(&call).lent;
    assert_eq!(lent.out[..14], [2, 7, 7, 7, 7, 0, 2, 7, 7, 7, 7, 7, 7, 0x5a]);
    assert_eq!(lent.origins[..14], [0, 1, 1, 0, 0, 1, 2, 3, 3, 0, 0, 0, 0, 0x5a5a]);
}

/// Document 02, No. 4, in each lane: a contact of four symbols, two pushes, a part of that contact, a contact of two.
#[test]
fn last_position_is_the_lanes_own() {
    let call = heat(hand::contacts(), &[1, 2, 3, 3, 4, 0, 5, 5, 2, 4, 5], &[(1, 5), (5, 3), (3, 2), (7, 4)]);
    lanes_get(&call, &[(3, 1, 0, 0), (4, 1, 0, 0), (2, 0, 0, 0), (4, 1, 0, 0)]);
    let lent = heated(&call).lent;
    assert_eq!(lent.out[..14], [2, 4, 0, 0, 6, 7, 6, 3, 4, 5, 2, 4, 5, 0x5a]);
    assert_eq!(lent.origins[..14], [0, 3, 4, 0, 1, 1, 2, 0, 1, 0, 1, 2, 3, 0x5a5a]);
}

/// Document 02, No. 5, in each lane: 8 and 9 with what goes between them, the finish alone, the turn alone, nothing
/// between the two, and a touch with what stands at its end.
#[test]
fn marks_put_in_at_the_lanes_own_ends() {
    let bounds = [(0, 2), (1, 1), (0, 1), (1, 0), (2, 2)];
    let call = heat(hand::laps(), &[8, 9, 2, 4], &bounds);
    lanes_get(&call, &[(4, 1, 0, 0), (2, 1, 0, 0), (3, 1, 0, 0), (0, 0, 0, 0), (2, 2, 0, 0)]);
    let lent = heated(&call).lent;
    assert_eq!(lent.out[..12], [8, 11, 12, 9, 7, 9, 8, 11, 12, 8, 6, 0x5a]);
    assert_eq!(lent.origins[..12], [0, 1, 1, 1, 0, 0, 0, 1, 1, 0, 2, 0x5a5a]);
    // What the second lane inserts at its front wants room, and what the third inserts at its end.
    let mut short = call.clone();
    for (room, second, third) in [(5, (0, 0, 15, 2), (0, 0, 15, 3)), (8, (2, 1, 0, 0), (0, 0, 15, 3))] {
        short.lengths = Lengths { out: room, origins: room, ..call.lengths };
        assert_eq!(got(&heated(&short))[1..3], [second, third], "{room}");
    }
}

#[test]
fn reply_17_for_a_stretch_that_leaves_the_buffer() {
    const MAX: u64 = u64::MAX;
    for inside in [(0, 0), (0, 3), (1, 2), (2, 1), (3, 0)] {
        lanes_get(&heat(one_to(&[]), &[0; 3], &[inside]), &[(inside.1, 0, 0, 0)]);
    }
    let outside = [(0, 4), (1, 3), (3, 1), (4, 0), (4, MAX - 3), (3, MAX - 2), (1, MAX), (0, MAX), (MAX, 0), (MAX, 1)];
    for bounds in outside.into_iter().chain([(MAX, MAX), (1 << 63, 1 << 63), (1 << 32, 0), (0, 1 << 32)]) {
        let call = heat(one_to(&[]), &[0; 3], &[bounds]);
        lanes_get(&call, &[(0, 0, 17, 0)]);
        let lent = heated(&call).lent;
        let built = heated(&heat(one_to(&[]), &[0; 3], &[])).lent;
        assert_eq!(Lent { lanes: Vec::new(), ..lent }, built, "17 writes nothing");
    }
    lanes_get(&heat(one_to(&[]), &[], &[(0, 0), (0, 1), (1, 0)]), &[(0, 0, 0, 0), (0, 0, 17, 0), (0, 0, 17, 0)]);
}

/// One lane at fault in every way; each time one fault less.
#[test]
fn replies_of_a_lane_come_in_order() {
    let tape = [vec![1; 4096], vec![32, 1]].concat();
    let mut call = heat(one_to(&[7, 7]), &tape, &[(1, 4098)]);
    call.lengths = Lengths { scratch: 3, out: 5, origins: 5, ..call.lengths };
    lanes_get(&call, &[(0, 0, 17, 0)]);
    call.lanes = lanes(&[(1, 4097)]);
    lanes_get(&call, &[(0, 0, 9, 0)]);
    call.lanes = lanes(&[(4090, 7)]);
    lanes_get(&call, &[(0, 0, 10, 6)]);
    call.lanes = lanes(&[(4090, 3)]);
    lanes_get(&call, &[(0, 0, 12, 0)]);
    let lent = heated(&call).lent;
    let unwritten = |lent: &Lent| (lent.scratch.clone(), lent.out.clone(), lent.origins.clone());
    assert_eq!(unwritten(&lent), unwritten(&Lent::before(&call)));
    call.lengths.scratch = 4;
    lanes_get(&call, &[(0, 0, 15, 6)]);
    let lent = heated(&call).lent;
    assert_eq!(lent.scratch, [1, 1, 1, 0]);
    assert!(lent.out == [0x5a; 5] && lent.origins == [0x5a5a; 5]);
    call.lengths = Lengths { out: 6, origins: 6, ..call.lengths };
    lanes_get(&call, &[(6, 3, 0, 0)]);
}

/// Document 02, No. 6, in each lane: 31 is rewritten, and the first 32 refused at its place in the lane.
#[test]
fn reply_10_of_a_lane_begins_at_32() {
    let book = draft::book(&[Rule::new(Part::any(), Part::word(&[31]), Part::any(), &[16, 31])]);
    let call = heat(book, &[15, 31, 16, 32, 255, 31], &[(0, 3), (0, 6), (1, 3), (3, 1), (4, 2), (5, 1)]);
    let (first, third) = ((4, 1, 0, 0), (0, 0, 10, 2));
    lanes_get(&call, &[first, (0, 0, 10, 3), third, (0, 0, 10, 0), (0, 0, 10, 0), (2, 1, 0, 0)]);
    assert_eq!(heated(&call).lent.out[..7], [15, 16, 31, 16, 16, 31, 0x5a]);
}

/// "a refused lane uses no room": what a longer lane cannot have a shorter one after it has. Each buffer's own rest
/// counts, and an empty output needs none.
#[test]
fn room_still_left() {
    let bounds = [(0, 2), (0, 4), (2, 2), (0, 0), (0, 1), (5, 1), (1, 1)];
    let mut call = heat(one_to(&[7, 7, 7]), &[1, 0, 2, 3, 1], &bounds);
    let (empty, outside, one_short) = ((0, 0, 0, 0), (0, 0, 17, 0), (0, 0, 15, 1));
    for (out, origins) in [(9, 9), (9, 40), (40, 9)] {
        call.lengths = Lengths { out, origins, ..call.lengths };
        let refused = (0, 0, 15, 6);
        lanes_get(&call, &[(4, 1, 0, 0), refused, (2, 0, 0, 0), empty, (3, 1, 0, 0), outside, one_short]);
    }
    // With one symbol more the second lane has room, and none is left for those after it.
    call.lengths = Lengths { out: 10, origins: 10, ..call.lengths };
    lanes_get(&call, &[(4, 1, 0, 0), (6, 1, 0, 0), (0, 0, 15, 2), empty, (0, 0, 15, 3), outside, one_short]);
    assert_eq!(heated(&call).lent.out, [7, 7, 7, 0, 7, 7, 7, 0, 2, 3]);
}

/// Right set 1 is the one before a symbol 1, right set 0 any other.
#[test]
fn scratch_as_the_lanes_leave_it() {
    let mut call = heat(one_to(&[7]), &[1, 1, 1, 1, 0, 32, 1, 1], &[(0, 4), (3, 2), (5, 1)]);
    call.lengths.scratch = 6;
    assert_eq!(heated(&call).lent.scratch, [1, 0, 0, 1, 0, 0x5a]);
    call.lanes = lanes(&[(0, 4), (4, 1), (4, 0), (5, 3), (8, 1)]);
    assert_eq!(heated(&call).lent.scratch, [0, 0, 1, 1, 0, 0x5a]);
    // The third lane is refused with 12, the fourth with 15; only the fourth writes.
    call.lanes = lanes(&[(0, 4), (4, 1), (0, 5), (6, 2)]);
    call.lengths = Lengths { scratch: 5, out: 6, origins: 5, ..call.lengths };
    lanes_get(&call, &[(4, 4, 0, 0), (1, 0, 0, 0), (0, 0, 12, 0), (0, 0, 15, 2)]);
    assert_eq!(heated(&call).lent.scratch, [1, 1, 0, 1, 0]);
}

/// Workspace as BUILD leaves it.
fn built(call: &Call) -> Answer {
    answer(&Call { operation: Operation::Build, lanes: Vec::new(), ..call.clone() }, Reading::TRUE)
}

#[test]
fn workspace_as_build_leaves_it() {
    // No lanes; no lane accepted; all accepted.
    for bounds in [vec![], vec![(0, 2), (9, 9)], vec![(0, 1), (0, 0)]] {
        let call = heat(house::book(), &[1, 32], &bounds);
        let (answer, built) = (heated(&call), built(&call));
        assert_eq!(answer.reply, 0);
        assert_eq!((answer.lent.rows, answer.lent.sets), (built.lent.rows, built.lent.sets));
    }
}

/// A refusal of the whole call: this reply and place, and nothing changed but the workspace as BUILD leaves it.
fn refused(call: &Call, reply: u8, place: u64) {
    let (answer, built) = (heated(call), built(call));
    assert_eq!((answer.reply, answer.place, answer.counts), (reply, place, [0; 4]));
    let Lent { rows, sets, .. } = if reply == 16 { Lent::before(call) } else { built.lent };
    assert_eq!(answer.lent, Lent { rows, sets, ..Lent::before(call) });
}

#[test]
fn replies_of_the_whole_call() {
    let places = full::places_before(9);
    let thirteen = draft::book(&[Rule::idle(places.clone(), Part::any())]);
    let fourteen = draft::book(&[Rule::idle(Part::any(), places.mirrored())]);
    // Every lane would be refused too; with none the call is refused all the same.
    for bounds in [vec![], vec![(0, 1), (7, 7)]] {
        let call = |book: &[u8]| heat(book.to_vec(), &[32], &bounds);
        refused(&call(&[9]), 2, 0);
        refused(&call(&[house::book(), vec![4]].concat()), 8, 148);
        refused(&call(&thirteen), 13, 0);
        refused(&call(&fourteen), 14, 0);
        for (rows, sets) in [(8192, 512), (16_383, 512), (16_384, 511)] {
            let mut short = call(&thirteen);
            short.lengths = Lengths { rows, sets, ..short.lengths };
            refused(&short, 11, 0);
        }
    }
    for book in [vec![9], thirteen, fourteen, house::book()] {
        let mut call = heat(book, &[32], &[(0, 0); 11]);
        refused(&call, 16, 0);
        call.lengths.rows = 0;
        refused(&call, 16, 0);
    }
    lanes_get(&heat(house::book(), &[32], &[(0, 0); 10]), &[(0, 0, 0, 0); 10]);
}

/// The document's words once more, by BUILD and REWRITE as they answer alone.
fn literally(call: &Call) -> Answer {
    let (lent, counts, operation) = (Lent::before(call), [0; 4], call.operation);
    let mut expected = Answer { operation, reply: 16, place: 0, counts, part: Vec::new(), lent };
    if call.lanes.len() > 10 {
        return expected;
    }
    let built = built(call);
    (expected.reply, expected.place) = (built.reply, built.place);
    (expected.lent.rows, expected.lent.sets) = (built.lent.rows, built.lent.sets);
    if built.reply == 0 {
        let mut used = 0;
        (0..call.lanes.len()).for_each(|at| used += lane_literally(call, at, used, &mut expected.lent));
    }
    expected
}

/// Puts one lane's result in its place; the room that it uses.
fn lane_literally(call: &Call, at: usize, used: usize, lent: &mut Lent) -> usize {
    let Lane { start, length } = call.lanes[at];
    let before = LaneRecord { start, length, out: 0, taken: 0, reply: 17, place: 0 };
    lent.lanes[at] = before;
    let end = start.checked_add(length).filter(|end| *end <= call.tape.len() as u64);
    let Some(end) = end else { return 0 };
    let tape = call.tape[start as usize..end as usize].to_vec();
    let (out, origins) = (call.lengths.out - used, call.lengths.origins - used);
    let lengths = Lengths { out, origins, ..call.lengths };
    let alone = Call { operation: Operation::Rewrite, tape, lengths, lanes: Vec::new(), ..call.clone() };
    let rewritten = answer(&alone, Reading::TRUE);
    let [out, taken, ..] = rewritten.counts;
    lent.lanes[at] = LaneRecord { out, taken, reply: rewritten.reply, place: rewritten.place, ..before };
    if matches!(rewritten.reply, 0 | 15) {
        lent.scratch[..=length as usize].copy_from_slice(&rewritten.lent.scratch[..=length as usize]);
    }
    let out = out as usize;
    lent.out[used..][..out].copy_from_slice(&rewritten.lent.out[..out]);
    lent.origins[used..][..out].copy_from_slice(&rewritten.lent.origins[..out]);
    out
}

#[test]
fn heats_are_rewrites_one_after_another() {
    let calls = (0..4000).map(|number| call(6, number)).filter(|call| call.operation == Operation::Heat);
    let mut heats = 0;
    for call in calls {
        assert_eq!(heated(&call), literally(&call), "{}", call.in_words());
        heats += 1;
    }
    assert!(heats > 500, "{heats}");
}

/// Output symbols and origins of each lane, and its record.
fn results(answer: &Answer) -> Vec<(Vec<u8>, Vec<u16>, LaneRecord)> {
    let mut used = 0;
    let mut results = Vec::new();
    for lane in &answer.lent.lanes {
        let (from, to) = (used, used + lane.out as usize);
        results.push((answer.lent.out[from..to].to_vec(), answer.lent.origins[from..to].to_vec(), *lane));
        used = to;
    }
    results
}

/// "Where no two lanes overlap, a change to one tape changes other lanes only through the place and room of later ones":
/// with room for all of them, in nothing but the place.
#[test]
fn a_change_to_one_tape() {
    let mut changes = 0;
    for number in 0..300 {
        let chance = &mut Chance::of(31, number);
        let alphabet = Alphabet::of(chance);
        let rules = rules::rules(&alphabet, chance);
        let mut call = heat(draft::book(&rules), &[], &[]);
        for _ in 0..chance.between(2, 5) {
            let mut tape = tapes::tape(&rules, &alphabet, chance);
            tape.truncate(30);
            call.lanes.push(Lane { start: call.tape.len() as u64, length: tape.len() as u64 });
            call.tape.extend(tape);
        }
        chance.shuffle(&mut call.lanes);
        call.lengths = Lengths { scratch: 31, out: 2000, origins: 2000, ..call.lengths };
        let at = chance.below(call.lanes.len());
        let Lane { start, length } = call.lanes[at];
        let mut changed = call.clone();
        changed.tape[start as usize..][..length as usize].fill_with(|| chance.below(33) as u8);
        let (before, after) = (heated(&call), heated(&changed));
        if before.reply != 0 {
            continue;
        }
        let (mut before, mut after) = (results(&before), results(&after));
        changes += usize::from(before.remove(at) != after.remove(at));
        assert_eq!(before, after, "heat {number}");
    }
    assert!(changes > 200, "{changes}");
}
