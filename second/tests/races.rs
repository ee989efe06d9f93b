//! Two races on one tape: document 02, No. 8, by hand, and on the reference alone; and that the comparison can fail.

use std::sync::OnceLock;

use second::account::{Line, WORDS_A_LINE};
use second::answer::Answer;
use second::book::Arc;
use second::call::{Call, Lengths};
use second::digits;
use second::draft::{self, Part, Rule};
use second::generate::races;
use second::operations::answer;
use second::races::case::{on_arc, Case, OnArc};
use second::races::conditions::Tally;
use second::races::law;
use second::reading::{Reading, Wrong};
use second::{hand, house};

const SEED: u64 = 3;
const CASES: u64 = 300;

/// Where the answers for the joined tape and for the first stand among the six.
const REWRITING: usize = 0;
const ACCOUNT: usize = 1;
const FIRST_REWRITING: usize = 2;
const FIRST_ACCOUNT: usize = 3;

fn answers(case: &Case, reading: Reading) -> Vec<Answer> {
    case.calls().iter().map(|call| answer(call, reading)).collect()
}

fn breaks(case: &Case, reading: Reading) -> bool {
    law::difference(case, &answers(case, reading)).is_some()
}

/// The cases of the fixed seed, with the reference's answers.
fn raced() -> &'static [(Case, Vec<Answer>)] {
    static RACED: OnceLock<Vec<(Case, Vec<Answer>)>> = OnceLock::new();
    let of = |case: Case| (case.clone(), answers(&case, Reading::TRUE));
    RACED.get_or_init(|| (0..CASES).map(|number| of(races::case(SEED, number, on_arc))).collect())
}

/// Two tapes in digits, each call lent just what it needs.
fn case(book: Vec<u8>, marker: u8, tapes: [&str; 2]) -> Case {
    let tape = |text: &str| text.bytes().map(|digit| digits::read(digit).expect("a digit")).collect();
    let [first, second] = tapes.map(tape);
    Case { book, marker, first, second, fill: 0xee, lengths: [Lengths::default(); 3] }.lent(0, [false; 2])
}

/// What the joined tape comes to.
struct Row<'a> {
    book: Vec<u8>,
    marker: u8,
    tapes: [&'a str; 2],
    output: &'a str,
    origins: &'a [u16],
    lines: &'a [Line],
}

#[test]
fn races_by_hand() {
    let nine_anywhere = draft::book(&[Rule::new(Part::any(), Part::word(&[]), Part::any(), &[9])]);
    let rows = [
        Row {
            book: house::book(),
            marker: 6,
            tapes: ["12400", "2400"],
            output: "1a006900",
            origins: &[0, 1, 3, 4, 5, 6, 8, 9],
            lines: &[[0, 1, 3, 0, 1, 0], [2, 1, 3, 2, 1, 0], [2, 6, 8, 0, 6, 2]],
        },
        // The quiet after the marker makes no finish of the touch before it, and the ripple before it no noise.
        Row {
            book: house::book(),
            marker: 6,
            tapes: ["24", "00"],
            output: "24600",
            origins: &[0, 1, 2, 3, 4],
            lines: &[],
        },
        Row {
            book: house::book(),
            marker: 6,
            tapes: ["1", "245"],
            output: "1685",
            origins: &[0, 1, 2, 4],
            lines: &[[1, 2, 4, 0, 2, 1]],
        },
        // The marker stands on both tapes too.
        Row {
            book: house::book(),
            marker: 6,
            tapes: ["624", "0062400"],
            output: "6246006900",
            origins: &[0, 1, 2, 3, 4, 5, 6, 7, 9, 10],
            lines: &[[2, 7, 9, 0, 7, 2]],
        },
        // A mark at the very end of the first tape, and one at the very front of the second.
        Row {
            book: hand::laps(),
            marker: 5,
            tapes: ["8", "9"],
            output: "8bc579",
            origins: &[0, 1, 1, 1, 2, 2],
            lines: &[[0, 1, 1, 0, 1, 0], [3, 2, 2, 0, 2, 3]],
        },
        Row {
            book: nine_anywhere,
            marker: 3,
            tapes: ["", ""],
            output: "939",
            origins: &[0, 0, 1],
            lines: &[[0, 0, 0, 0, 0, 0], [0, 1, 1, 0, 1, 0]],
        },
        // The last position of a stretch is moved on too.
        Row {
            book: hand::contacts(),
            marker: 1,
            tapes: ["234", "234"],
            output: "24124",
            origins: &[0, 2, 3, 4, 6],
            lines: &[[0, 0, 3, 0, 0, 0], [0, 4, 7, 0, 4, 0]],
        },
    ];
    for Row { book, marker, tapes, output, origins, lines } in rows {
        let case = case(book, marker, tapes);
        let answers = answers(&case, Reading::TRUE);
        assert!(answers.iter().all(|answer| answer.reply == 0), "{tapes:?}");
        assert_eq!(digits::shown(answers[REWRITING].symbols()), output, "{tapes:?}");
        assert_eq!(answers[REWRITING].origins(), origins, "{tapes:?}");
        assert_eq!(answers[ACCOUNT].account(), lines, "{tapes:?}");
        assert_eq!(law::difference(&case, &answers), None, "{tapes:?}");
    }
}

/// "on no arc of the book": with push, quiet or hold between them the two tapes are read as one.
#[test]
fn a_marker_on_an_arc_by_hand() {
    for (marker, tapes) in [(5, ["24", ""]), (0, ["24", "0"]), (3, ["2", "45"])] {
        assert!(breaks(&case(house::book(), marker, tapes), Reading::TRUE), "{marker}");
    }
}

#[test]
fn races_of_a_fixed_seed() {
    let mut tally = Tally::default();
    assert_eq!(tally.never_met().len(), tally.table().lines().count());
    for (case, answers) in raced() {
        assert_eq!(law::difference(case, answers), None, "{}", case.in_words());
        assert!(answers.iter().all(|answer| answer.reply == 0), "{}", case.in_words());
        tally.add(case, answers);
    }
    assert!(tally.never_met().is_empty(), "{}", tally.table());
}

#[test]
fn cases_are_read_as_they_were_written() {
    for (case, _) in raced() {
        let requests: Vec<u8> = case.calls().iter().flat_map(Call::to_bytes).collect();
        assert_eq!(Case::read(&requests).expect("a case"), *case);
        assert!(Case::read(&requests[1..]).is_err() && Case::read(&requests[..requests.len() - 1]).is_err());
    }
}

/// By these a symbol at an edge of an arc's range is not on the arc.
fn above_lowest(arc: &Arc, symbol: u8) -> bool {
    arc.lowest < symbol && symbol <= arc.highest
}

fn below_highest(arc: &Arc, symbol: u8) -> bool {
    arc.lowest <= symbol && symbol < arc.highest
}

#[test]
fn an_edge_of_an_arc_is_on_it() {
    for on_arc in [above_lowest as OnArc, below_highest] {
        let broken = (0..CASES).filter(|number| breaks(&races::case(SEED, *number, on_arc), Reading::TRUE)).count();
        assert!(broken > 10, "{broken}");
    }
}

/// A change to true answers is noticed wherever it is one, and the seed has cases enough where it is.
fn is_noticed(change: impl Fn(&Case, &mut [Answer])) {
    let mut noticed = 0;
    for (case, answers) in raced() {
        let mut changed = answers.clone();
        change(case, &mut changed);
        let differs = law::difference(case, &changed).is_some();
        assert_eq!(differs, changed != *answers, "{}", case.in_words());
        noticed += u64::from(differs);
    }
    assert!(noticed > CASES / 4, "{noticed}");
}

/// Changes the joined rewriting, given the place of its marker.
fn in_rewriting(answers: &mut [Answer], change: impl Fn(&mut Answer, usize)) {
    let marker = answers[FIRST_REWRITING].counts[0] as usize;
    change(&mut answers[REWRITING], marker);
}

#[test]
fn a_wrong_rewriting_is_noticed() {
    let changes: [fn(&mut Answer, usize); 6] = [
        |joined, marker| {
            let second = marker + 1..joined.counts[0] as usize;
            joined.lent.origins[second].iter_mut().for_each(|origin| *origin -= 1);
        },
        |joined, marker| joined.lent.origins[marker] += 1,
        |joined, marker| joined.lent.out[marker] ^= 1,
        |joined, marker| joined.lent.out[..=marker].rotate_right(1),
        |joined, _| joined.counts[0] += 1,
        |joined, _| joined.counts[1] += 1,
    ];
    changes.into_iter().for_each(|change| is_noticed(|_, answers| in_rewriting(answers, change)));
}

/// Changes words of the second tape's lines in the joined account.
fn in_second_lines(answers: &mut [Answer], words: &[usize], change: impl Fn(u16) -> u16) {
    let (first, all) = (answers[FIRST_ACCOUNT].counts[0] as usize, answers[ACCOUNT].counts[0] as usize);
    for line in answers[ACCOUNT].lent.lines.chunks_mut(WORDS_A_LINE).take(all).skip(first) {
        words.iter().for_each(|word| line[*word] = change(line[*word]));
    }
}

#[test]
fn a_wrong_account_is_noticed() {
    let [rule, start, end, verdict, deciding_start, deciding_rule] = [0, 1, 2, 3, 4, 5];
    is_noticed(|_, answers| in_second_lines(answers, &[start, end, deciding_start], |position| position - 1));
    for position in [start, end, deciding_start] {
        is_noticed(|case, answers| in_second_lines(answers, &[position], |moved| moved - case.moved()));
    }
    for kept in [rule, verdict, deciding_rule] {
        is_noticed(|_, answers| in_second_lines(answers, &[kept], |word| word ^ 1));
        is_noticed(|case, answers| in_second_lines(answers, &[kept], |word| word + case.moved()));
    }
    is_noticed(|_, answers| answers[ACCOUNT].counts[0] += 1);
}

/// Each of the two calls alone must be accepted if the joined one is; of a joined call that is refused nothing is said.
#[test]
fn a_refusal_is_noticed() {
    (2..6).for_each(|alone| is_noticed(|_, answers| answers[alone].reply = 15));
    let (case, answers) = &raced()[0];
    let refused = answers.iter().map(|answer| Answer { reply: 13, ..answer.clone() });
    assert_eq!(law::difference(case, &refused.collect::<Vec<_>>()), None);
}

/// The wrong readings that look across the marker, or where on the tape a position is.
const BROKEN_BY: [Wrong; 31] = [
    Wrong::LeftAnchored,
    Wrong::RightAnchored,
    Wrong::OriginInOutput,
    Wrong::OrderRuleFirst,
    Wrong::LowestTakenRule,
    Wrong::HighestTakenRule,
    Wrong::LastTakenRule,
    Wrong::InsideNextRule,
    Wrong::InsideEarlierRule,
    Wrong::DecidingWordsSwapped,
    Wrong::LastBeforeLast,
    Wrong::LastInOutput,
    Wrong::EmptyTapeBare,
    Wrong::NoneAfterInsertion,
    Wrong::InsertedAlone,
    Wrong::FrontNotRewritten,
    Wrong::EndNotRewritten,
    Wrong::SymbolDropped,
    Wrong::SymbolBeforeWord,
    Wrong::InsertedEarly,
    Wrong::InsertedLastEarly,
    Wrong::EndAtLastPosition,
    Wrong::InsertedInOutput,
    Wrong::KeptLate,
    Wrong::EndNotAccounted,
    Wrong::EndUncounted,
    Wrong::EndUnlisted,
    Wrong::EmptyLinesApart,
    Wrong::OldRangeOpen,
    Wrong::UpperFolded,
    Wrong::KeptFolded,
];

#[test]
fn wrong_readings_break_the_law() {
    let short = |(case, _): &&(Case, Vec<Answer>)| case.first.len() + case.second.len() < 40;
    let with_room = |(case, _): &(Case, Vec<Answer>)| case.clone().lent(60, [true; 2]);
    let cases: Vec<Case> = raced().iter().filter(short).map(with_room).collect();
    for wrong in BROKEN_BY {
        assert!(cases.iter().any(|case| breaks(case, Reading::with(wrong))), "{}", wrong.name());
    }
}
