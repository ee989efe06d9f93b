//! Each reply, its place, and what it leaves in the buffers.

use std::slice;

use second::answer::{Answer, Lent};
use second::call::{Call, Lengths, Operation};
use second::draft::{self, Part, Rule};
use second::generate::full;
use second::operations::answer;
use second::reading::Reading;
use second::record::{arc, end, rule, state};

fn checked(book: Vec<u8>) -> (u8, u64) {
    let mut call = Call::new(Operation::Check);
    call.book = book;
    let answer = answer(&call, Reading::TRUE);
    assert!(answer.reply == 0 || answer.counts == [0; 4], "a refusal returns 0 for its counts");
    (answer.reply, answer.place)
}

/// One rule whose left part has states 0 and 1.
fn begun() -> Vec<Vec<u8>> {
    vec![rule(&[5]), state(0, 1), state(0, 2)]
}

/// The book that goes on after `begun` with these records (16 bytes later) and an end.
fn with(records: &[Vec<u8>]) -> Vec<u8> {
    [begun(), records.to_vec(), vec![end()]].concat().concat()
}

#[test]
fn replies_of_a_book() {
    assert_eq!(checked(with(&[])), (0, 0));
    assert_eq!(checked(vec![]), (1, 0));
    assert_eq!(checked(begun().concat()), (1, 16), "a missing kind stands at the book's length");
    assert_eq!(checked([begun().concat(), vec![3, 0, 1]].concat()), (1, 16));
    assert_eq!(checked(vec![1]), (1, 0));
    assert_eq!(checked(vec![2]), (1, 0), "a cut body comes before 4");
    assert_eq!(checked(vec![0]), (2, 0));
    assert_eq!(checked(vec![5, 9, 9]), (2, 0));
    assert_eq!(checked(with(&[vec![255]])), (2, 16));
    assert_eq!(checked(state(7, 7)), (4, 0), "4 comes before 5");
    assert_eq!(checked(arc(9, 9, 9, 9)), (4, 0));
    assert_eq!(checked(vec![4, 4, 4]), (4, 0), "4 comes before 8");
    assert_eq!(checked(with(&[]).into_iter().chain([4]).collect()), (8, 17));
}

/// Document 02, No. 5: "7 is no longer given." In each part each of the four flags stands, and 5 follows the last.
#[test]
fn reply_7_is_no_longer_given() {
    for part in 0..3 {
        for flags in 0..4 {
            assert_eq!(checked(with(&[state(part, flags)])), (0, 0), "part {part}, flags {flags}");
        }
        assert_eq!(checked(with(&[state(part, 4)])), (5, 16), "part {part}");
    }
}

#[test]
fn replies_of_fields_and_names() {
    let after_rule = |record: Vec<u8>| checked(with(&[record]));
    let mut long = rule(&[1; 8]);
    assert_eq!(after_rule(long.clone()), (0, 0));
    long[1] = 9;
    assert_eq!(after_rule(long), (5, 16));
    let mut unused = rule(&[1, 2]);
    unused[4] = 1;
    assert_eq!(after_rule(unused), (5, 16));
    for bad in
        [rule(&[32]), state(3, 0), state(0, 4), arc(0, 0, 32, 1), arc(0, 32, 32, 1), arc(0, 3, 2, 1), arc(99, 3, 2, 1)]
    {
        assert_eq!(after_rule(bad.clone()), (5, 16), "{bad:?}");
    }
    assert_eq!(after_rule(arc(0, 0, 31, 1)), (0, 0));
    for bad in [arc(0, 0, 0, 2), arc(2, 0, 0, 0), arc(64, 0, 0, 0), arc(0, 0, 0, 255)] {
        assert_eq!(after_rule(bad.clone()), (6, 16), "{bad:?}");
    }
    assert_eq!(checked(with(&[state(1, 1), arc(0, 0, 0, 2)])), (6, 19), "two parts");
    assert_eq!(checked(with(&[rule(&[]), arc(0, 0, 0, 1)])), (6, 26), "an earlier rule");
    assert_eq!(checked(with(&[arc(0, 0, 0, 2), state(0, 0)])), (6, 16), "a state not yet given");
}

/// Document 02, No. 6: "Symbols run from 0 to 31", "5 and 10 now begin at 32": in a word, first and last; as an arc's
/// highest and lowest.
#[test]
fn reply_5_begins_at_32() {
    for symbol in 0..=255 {
        let expected = if symbol < 32 { (0, 0) } else { (5, 16) };
        let named = [
            rule(&[symbol]),
            rule(&[31, 0, 1, 2, 3, 4, 5, symbol]),
            arc(0, 0, symbol, 1),
            arc(1, symbol, symbol.max(31), 0),
            arc(1, symbol, symbol, 1),
        ];
        for record in named {
            assert_eq!(checked(with(slice::from_ref(&record))), expected, "{record:?}");
        }
    }
    assert_eq!(checked(with(&[arc(0, 31, 16, 1)])), (5, 16), "lowest above highest");
    // Past the word every byte but 0 is refused, a good symbol too.
    let mut unused = rule(&[31]);
    unused[3] = 31;
    assert_eq!(checked(with(&[unused])), (5, 16));
}

/// A book of one rule: symbol 1 to `word`, between any contexts.
fn book(word: &[u8]) -> Vec<u8> {
    draft::book(&[Rule::new(Part::any(), Part::word(&[1]), Part::any(), word)])
}

fn call(operation: Operation, book: Vec<u8>, tape: &[u8]) -> Call {
    let mut call = Call::new(operation);
    call.fill = 0x5a;
    call.book = book;
    call.tape = tape.to_vec();
    call.lengths = Lengths { rows: 16_387, sets: 514, scratch: tape.len() + 3, ..Lengths::default() };
    match operation {
        Operation::Rewrite => (call.lengths.out, call.lengths.origins) = (9, 9),
        _ => call.lengths.lines = 9,
    }
    call
}

/// The answer must be this refusal with no buffer changed.
fn refused_untouched(call: &Call, reply: u8, place: u64) {
    let answer = answer(call, Reading::TRUE);
    assert_eq!((answer.reply, answer.place, answer.counts), (reply, place, [0; 4]));
    assert_eq!(answer.lent, Lent::before(call), "reply {reply} changes no buffer");
}

#[test]
fn replies_9_to_12_change_nothing_and_come_in_order() {
    for operation in [Operation::Rewrite, Operation::Account] {
        let mut faulty = call(operation, book(&[]), &[vec![0; 4096], vec![32]].concat());
        faulty.lengths = Lengths { rows: 16_383, scratch: 4097, ..faulty.lengths };
        refused_untouched(&faulty, 9, 0);
        faulty.tape = vec![0, 31, 32, 99];
        faulty.lengths.scratch = 4;
        refused_untouched(&faulty, 10, 2);
        faulty.tape = vec![0, 1, 2, 3];
        refused_untouched(&faulty, 11, 0);
        faulty.lengths = Lengths { rows: 16_384, sets: 511, ..faulty.lengths };
        refused_untouched(&faulty, 11, 0);
        faulty.lengths.sets = 512;
        refused_untouched(&faulty, 12, 0);
        faulty.book = vec![9];
        refused_untouched(&faulty, 2, 0);
    }
    let mut building = call(Operation::Build, book(&[]), &[]);
    building.lengths.sets = 0;
    refused_untouched(&building, 11, 0);
}

/// Document 02, No. 6: "10 .. at 32". The third symbol is the first that can be bad; the fourth is always.
#[test]
fn reply_10_begins_at_32() {
    for operation in [Operation::Rewrite, Operation::Account] {
        for symbol in 0..=255 {
            let faulty = call(operation, book(&[]), &[31, 16, symbol, 255]);
            refused_untouched(&faulty, 10, if symbol < 32 { 3 } else { 2 });
            let answer = answer(&call(operation, book(&[]), &[31, 16, symbol]), Reading::TRUE);
            let (reply, place) = if symbol < 32 { (0, 0) } else { (10, 2) };
            assert_eq!((answer.reply, answer.place), (reply, place), "{symbol}");
        }
    }
}

/// Document 02, No. 6: "11 at the new length".
#[test]
fn reply_11_begins_below_16384_bytes() {
    for operation in [Operation::Build, Operation::Rewrite, Operation::Account] {
        let mut building = call(operation, book(&[]), &[]);
        for rows in [0, 8191, 8192, 8193, 16_383] {
            building.lengths.rows = rows;
            refused_untouched(&building, 11, 0);
        }
        building.lengths.rows = 16_384;
        assert_eq!(answer(&building, Reading::TRUE).reply, 0);
    }
}

/// The workspace parts are 0, and the three rows and two sets past them keep their values, as all the rest does.
fn workspace_is_cleared(call: &Call, answer: &Answer) {
    let mut expected = Lent::before(call);
    expected.rows[..16_384].fill(0);
    expected.sets[..512].fill(0);
    assert_eq!(answer.lent, expected);
}

#[test]
fn replies_13_and_14_clear_the_workspace() {
    let (left, right) = (full::places_before(9), full::places_before(9).mirrored());
    let books = [
        (13, Rule::idle(left.clone(), Part::any())),
        (14, Rule::idle(Part::any(), right.clone())),
        (13, Rule::idle(left, right)),
    ];
    for (reply, rule) in books {
        for operation in [Operation::Build, Operation::Rewrite, Operation::Account] {
            let mut call = call(operation, draft::book(slice::from_ref(&rule)), &[1, 2]);
            if operation == Operation::Build {
                call.tape.clear();
                call.lengths.scratch = 0;
            }
            let answer = answer(&call, Reading::TRUE);
            assert_eq!((answer.reply, answer.place, answer.counts), (reply, 0, [0; 4]));
            workspace_is_cleared(&call, &answer);
        }
    }
}

#[test]
fn reply_15_leaves_workspace_and_scratch_as_acceptance_does() {
    let rewriting = call(Operation::Rewrite, book(&[7, 7, 7]), &[1, 0, 1]);
    let accounting = call(Operation::Account, book(&[7, 7, 7]), &[1, 0, 1]);
    let lent = |call: &Call, out, origins, lines| {
        let lengths = Lengths { out, origins, lines, ..call.lengths };
        answer(&Call { lengths, ..call.clone() }, Reading::TRUE)
    };
    let accepted = lent(&rewriting, 7, 7, 0);
    assert_eq!((accepted.reply, accepted.counts), (0, [7, 2, 0, 0]));
    for (out, origins) in [(6, 7), (7, 6), (0, 0), (9, 0)] {
        let refused = lent(&rewriting, out, origins, 0);
        assert_eq!((refused.reply, refused.place, refused.counts), (15, 7, [0; 4]));
        same_workspace_and_scratch(&refused, &accepted);
        assert!(refused.lent.out.iter().all(|symbol| *symbol == 0x5a));
        assert!(refused.lent.origins.iter().all(|origin| *origin == 0x5a5a));
    }
    let accepted = lent(&accounting, 0, 0, 12);
    assert_eq!((accepted.reply, accepted.counts), (0, [2, 0, 0, 0]));
    for lines in [11, 10, 6, 0] {
        let refused = lent(&accounting, 0, 0, lines);
        assert_eq!((refused.reply, refused.place, refused.counts), (15, 12, [0; 4]));
        same_workspace_and_scratch(&refused, &accepted);
        assert!(refused.lent.lines.iter().all(|word| *word == 0x5a5a));
    }
}

/// A word inserted at the tape's end, and a symbol kept at an insertion, want their room; so do the lines of both. On
/// 10 the word stands before the 1 and at the end.
#[test]
fn reply_15_counts_what_is_inserted() {
    let before_1 = Rule::new(Part::any(), Part::word(&[]), Part::word(&[1]), &[7, 7]);
    let after_0 = Rule::new(Part::word(&[0]), Part::word(&[]), Part::any(), &[7, 7]);
    let inserting = draft::book(&[before_1, after_0]);
    let (rewriting, accounting) =
        (call(Operation::Rewrite, inserting.clone(), &[1, 0]), call(Operation::Account, inserting, &[1, 0]));
    for (out, origins, reply) in [(6, 6, 0), (5, 6, 15), (6, 5, 15), (4, 4, 15), (3, 3, 15), (2, 6, 15), (0, 0, 15)] {
        let lengths = Lengths { out, origins, ..rewriting.lengths };
        let answer = answer(&Call { lengths, ..rewriting.clone() }, Reading::TRUE);
        let (place, counts) = if reply == 0 { (0, [6, 2, 0, 0]) } else { (6, [0; 4]) };
        assert_eq!((answer.reply, answer.place, answer.counts), (reply, place, counts), "{out} {origins}");
        assert_eq!(answer.lent.scratch[..3], [1, 0, 0]);
        if reply == 0 {
            assert_eq!((answer.lent.out, answer.lent.origins), (vec![7, 7, 1, 0, 7, 7], vec![0, 0, 0, 1, 2, 2]));
        }
    }
    for (lines, reply) in [(12, 0), (11, 15), (6, 15), (0, 15)] {
        let lengths = Lengths { lines, ..accounting.lengths };
        let answer = answer(&Call { lengths, ..accounting.clone() }, Reading::TRUE);
        let (place, counts) = if reply == 0 { (0, [2, 0, 0, 0]) } else { (12, [0; 4]) };
        assert_eq!((answer.reply, answer.place, answer.counts), (reply, place, counts), "{lines}");
        if reply == 0 {
            assert_eq!(answer.lent.lines, [0, 0, 0, 0, 0, 0, 1, 2, 2, 0, 2, 1]);
        }
    }
}

fn same_workspace_and_scratch(one: &Answer, other: &Answer) {
    assert_eq!(one.lent.rows, other.lent.rows);
    assert_eq!(one.lent.sets, other.lent.sets);
    assert_eq!(one.lent.scratch, other.lent.scratch);
}

/// A workspace small enough to be worked by hand: rule of symbol 1 between any contexts, states 0 left, 1 and 2
/// focus, 3 right.
#[test]
fn workspace_worked_by_hand() {
    let call = call(Operation::Rewrite, book(&[]), &[1, 0, 1]);
    let answer = answer(&call, Reading::TRUE);
    // Left: state 0 always. Right: 3 always; 2 because the right language holds everywhere; 1 if a 1 follows.
    assert_eq!(answer.lent.sets[0], 0b0001);
    assert_eq!(answer.lent.sets[256..259], [0b1100, 0b1110, 0]);
    assert_eq!(answer.lent.rows[..16_384].iter().filter(|number| **number != 0).count(), 2);
    assert_eq!(answer.lent.rows[8192 + 1], 1);
    assert_eq!(answer.lent.rows[8192 + 32 + 1], 1);
    assert_eq!(answer.lent.scratch, [1, 0, 1, 0, 0x5a, 0x5a]);
    assert_eq!(answer.lent.rows[16_384..], [0x5a; 3]);
    assert_eq!(answer.lent.sets[512..], [0x5a5a_5a5a_5a5a_5a5a; 2]);
}

/// The numbers of a side with their sets, and of each row the entries that are not 0.
fn side_is(answer: &Answer, first: usize, sets: &[u64], rows: &[&[(usize, u8)]]) {
    assert_eq!(answer.lent.sets[first..first + sets.len()], *sets);
    for (number, entries) in rows.iter().enumerate() {
        let mut row = [0; 32];
        entries.iter().for_each(|(symbol, next)| row[*symbol] = *next);
        assert_eq!(answer.lent.rows[32 * (first + number)..][..32], row, "row {number}");
    }
    let past = 32 * (first + rows.len())..32 * (first + 256);
    assert!(answer.lent.rows[past].iter().all(|entry| *entry == 0));
}

/// Document 02, No. 6: "Symbols run from 0 to 31, also in numbering." Left states 0 to 3: from the start 0 a 15 leads to
/// 3, a 16 to 2, and 29 to 31 to 1, from where a 31 leads to 2. Right states 4 to 6: an 18 leads from 5, a 1 from 6 to
/// the accept 4.
#[test]
fn numbering_worked_by_hand() {
    let states = [(0, 1), (0, 2), (0, 2), (0, 2), (2, 2), (2, 1), (2, 1)].map(|(part, flags)| state(part, flags));
    let arcs = [
        arc(0, 29, 31, 1),
        arc(0, 16, 16, 2),
        arc(0, 15, 15, 3),
        arc(1, 31, 31, 2),
        arc(5, 18, 18, 4),
        arc(6, 1, 1, 4),
    ];
    let records = [vec![rule(&[])], states.to_vec(), arcs.to_vec(), vec![end()]].concat();
    let built = answer(&call(Operation::Build, records.concat(), &[]), Reading::TRUE);
    assert_eq!((built.reply, built.counts), (0, [5, 3, 0, 0]));
    // {0}, then by 15 {0, 3}, by 16 {0, 2}, by 29 {0, 1}; from there by 31 {0, 1, 2}.
    let (few, more) = ([(15, 1), (16, 2), (29, 3), (30, 3), (31, 3)], [(15, 1), (16, 2), (29, 3), (30, 3), (31, 4)]);
    side_is(&built, 0, &[0b0001, 0b1001, 0b0101, 0b0011, 0b0111, 0], &[&few, &few, &few, &more, &more]);
    // {4}, then before a 1 {4, 6}, before an 18 {4, 5}.
    let right = [(1, 1), (18, 2)];
    side_is(&built, 256, &[0b001_0000, 0b101_0000, 0b011_0000, 0], &[&right, &right, &right]);
    assert_eq!(built.lent.rows[16_384..], [0x5a; 3]);
    // A tape of 1, 18 and 31: before the 1, before the 18, before the 31, at the end.
    let mut rewriting = call(Operation::Rewrite, records.concat(), &[1, 18, 31]);
    rewriting.lengths.scratch = 4;
    assert_eq!(answer(&rewriting, Reading::TRUE).lent.scratch, [1, 2, 0, 0]);
}
