//! The reference, and the fast stand-in, against document 01, with No. 1 and No. 4 to No. 6 of document 02, read as
//! literally as can be: every run followed on its own, from state to state. Slow, so small tapes alone.

use std::slice;

use second::account::{self, Line, WORDS_A_LINE};
use second::answer::{Answer, Lent};
use second::book::{self, Book, MOST_RULES};
use second::call::{Call, Lengths, Operation};
use second::candidates::Stretch;
use second::chance::Chance;
use second::generate::alphabet::Alphabet;
use second::generate::{rules, tapes};
use second::operations::answer;
use second::output::{self, Output};
use second::reading::{Reading, Wrong};
use second::record::{FOCUS, LEFT, RIGHT};
use second::sets::{left_set, right_set};
use second::stretches::Stretches;
use second::{draft, fast};

const BOOKS: u64 = 1500;
const LONGEST: usize = 7;
/// Every stretch of the longest tape for each rule, the empty ones too.
const MOST_LINES: usize = MOST_RULES * (LONGEST + 1) * (LONGEST + 2) / 2;
const MOST_WORDS: usize = MOST_LINES * WORDS_A_LINE;
/// Each symbol of the longest tape kept, and eight inserted at each place.
const MOST_OUT: usize = LONGEST + 8 * (LONGEST + 1);

/// Whether some run from this state over this word ends in a state that is wanted.
fn leads(book: &Book, state: usize, word: &[u8], wanted: &dyn Fn(usize) -> bool) -> bool {
    let Some((symbol, rest)) = word.split_first() else { return wanted(state) };
    let open = |arc: &&book::Arc| arc.from == state && (arc.lowest..=arc.highest).contains(symbol);
    book.arcs.iter().filter(open).any(|arc| leads(book, arc.to, rest, wanted))
}

fn states(book: &Book, part: u8) -> Vec<usize> {
    (0..book.states.len()).filter(|state| book.states[*state].part == part).collect()
}

fn in_language(book: &Book, rule: usize, part: u8, word: &[u8]) -> bool {
    let of_rule = states(book, part).into_iter().filter(|state| book.states[*state].rule == rule);
    let mut starts = of_rule.filter(|state| book.states[*state].start);
    starts.any(|start| leads(book, start, word, &|state| book.states[state].accept))
}

fn right_holds(book: &Book, rule: usize, tape: &[u8], at: usize) -> bool {
    (at..=tape.len()).any(|end| in_language(book, rule, RIGHT, &tape[at..end]))
}

/// Start, end and rule of every candidate, in the account's order.
fn candidates(book: &Book, tape: &[u8]) -> Vec<(usize, usize, usize)> {
    let mut found = Vec::new();
    for i in 0..=tape.len() {
        for j in i..=tape.len() {
            for rule in 0..book.words.len() {
                let left = (0..=i).any(|begin| in_language(book, rule, LEFT, &tape[begin..i]));
                if left && in_language(book, rule, FOCUS, &tape[i..j]) && right_holds(book, rule, tape, j) {
                    found.push((i, j, rule));
                }
            }
        }
    }
    found
}

fn taken(candidates: &[(usize, usize, usize)]) -> Vec<(usize, usize, usize)> {
    let mut taken: Vec<(usize, usize, usize)> = Vec::new();
    loop {
        let from = taken.last().map_or(0, |(_, end, _)| *end);
        let again = |start: &usize| taken.iter().any(|(taken, _, _)| taken == start);
        let starts = candidates.iter().map(|(start, _, _)| *start).filter(|start| *start >= from && !again(start));
        let Some(start) = starts.min() else {
            return taken;
        };
        let here = candidates.iter().filter(|(at, _, _)| *at == start);
        let longest = here.clone().map(|(_, end, _)| *end).max().expect("a candidate start");
        let rule = here.filter(|(_, end, _)| *end == longest).map(|(_, _, rule)| *rule).min().expect("a rule");
        taken.push((start, longest, rule));
    }
}

/// Output symbols with their origins: at each position of the tape, and at its end, those that have it as origin.
fn literal_output(book: &Book, tape: &[u8], taken: &[(usize, usize, usize)]) -> Vec<(u8, u16)> {
    let mut output = Vec::new();
    for position in 0..=tape.len() {
        let mut write = |symbols: &[u8]| output.extend(symbols.iter().map(|symbol| (*symbol, position as u16)));
        let inserted = taken.iter().find(|(start, end, _)| (*start, *end) == (position, position));
        inserted.iter().for_each(|(_, _, rule)| write(&book.words[*rule]));
        let around = taken.iter().find(|(start, end, _)| (*start..*end).contains(&position));
        let Some((start, end, rule)) = around else {
            write(tape.get(position).map_or(&[], slice::from_ref));
            continue;
        };
        let (at_start, at_last) = by_origin(&book.words[*rule]);
        if position == *start {
            write(at_start);
        }
        if position + 1 == *end {
            write(at_last);
        }
    }
    output
}

/// The symbols of a word whose origin is the start of the stretch, and those whose origin is its last position.
fn by_origin(word: &[u8]) -> (&[u8], &[u8]) {
    match word {
        [] | [_] => (word, &[]),
        [others @ .., last] => (others, slice::from_ref(last)),
    }
}

/// Whether a stretch of two or more symbols is replaced by a word of so many or more.
fn has_mark(book: &Book, taken: &[(usize, usize, usize)], symbols: usize) -> bool {
    taken.iter().any(|(start, end, rule)| *start + 2 <= *end && book.words[*rule].len() >= symbols)
}

/// In which of these ways empty candidates stand on a tape of n symbols: taken at its front, inside it, at its end, on
/// the empty tape, at the end of a taken stretch; not taken inside a taken stretch, at the start of one, beside a lower
/// rule.
fn ways_of_empty(n: usize, candidates: &[(usize, usize, usize)], taken: &[(usize, usize, usize)]) -> [bool; 8] {
    let empty = |of: &[(usize, usize, usize)], wanted: &dyn Fn(usize) -> bool| {
        of.iter().any(|(start, end, _)| start == end && wanted(*start))
    };
    let longer =
        |wanted: &dyn Fn(usize, usize) -> bool| taken.iter().any(|(start, end, _)| start < end && wanted(*start, *end));
    let lower = |at: usize| candidates.iter().filter(|candidate| (candidate.0, candidate.1) == (at, at)).count() > 1;
    [
        empty(taken, &|at| at == 0 && n > 0),
        empty(taken, &|at| 0 < at && at < n),
        empty(taken, &|at| at == n && n > 0),
        empty(taken, &|_| n == 0),
        empty(taken, &|at| longer(&|_, end| end == at)),
        empty(candidates, &|at| longer(&|start, end| start < at && at < end)),
        empty(candidates, &|at| longer(&|start, _| start == at)),
        empty(taken, &lower),
    ]
}

/// A verdict at a time: its condition, and the start and the rule of the stretch that it names.
fn line(candidate: (usize, usize, usize), taken: &[(usize, usize, usize)]) -> Line {
    let (start, end, rule) = candidate;
    let same_start = taken.iter().find(|(at, _, _)| *at == start);
    let around = taken.iter().find(|(at, to, _)| *at < start && start < *to);
    let (verdict, deciding_start, deciding_rule) = match (same_start, around) {
        (Some(taken), None) if *taken == candidate => (0, start, rule),
        (Some((_, longest, of_longest)), None) if end < *longest => (1, start, *of_longest),
        (Some((_, longest, lower)), None) if end == *longest && *lower < rule => (2, start, *lower),
        (None, Some((before, _, of_around))) => (3, *before, *of_around),
        _ => panic!("a candidate has exactly one verdict"),
    };
    [rule, start, end, verdict, deciding_start, deciding_rule].map(|word| word as u16)
}

/// The rule taken at a taken start, from the candidates alone: "which rule beat this one", and is beaten by none.
fn rule_taken_at(start: usize, candidates: &[(usize, usize, usize)]) -> usize {
    let here = || candidates.iter().filter(|(at, _, _)| *at == start);
    let beaten = |(_, end, rule): &(usize, usize, usize)| {
        here().any(|(_, other_end, other)| other_end > end || other_end == end && other < rule)
    };
    here().find(|one| !beaten(one)).expect("a candidate start").2
}

fn sum(states: impl Iterator<Item = usize>) -> u64 {
    states.map(|state| 1u64 << state).sum()
}

fn literal_left_set(book: &Book, tape: &[u8], i: usize) -> u64 {
    let starts: Vec<usize> = states(book, LEFT).into_iter().filter(|state| book.states[*state].start).collect();
    let reached = |wanted: usize| {
        (0..=i).any(|begin| starts.iter().any(|start| leads(book, *start, &tape[begin..i], &|state| state == wanted)))
    };
    sum(states(book, LEFT).into_iter().filter(|state| reached(*state)))
}

fn literal_right_set(book: &Book, tape: &[u8], i: usize) -> u64 {
    let accepts = |state: usize, k: usize| leads(book, state, &tape[i..k], &|state| book.states[state].accept);
    let right = states(book, RIGHT).into_iter().filter(|state| (i..=tape.len()).any(|k| accepts(*state, k)));
    let rule = |state: usize| book.states[state].rule;
    let fits = |state: &usize| (i..=tape.len()).any(|k| accepts(*state, k) && right_holds(book, rule(*state), tape, k));
    sum(right) | sum(states(book, FOCUS).into_iter().filter(fits))
}

fn answered(operation: Operation, book: &[u8], tape: &[u8]) -> Answer {
    answered_by(operation, book, tape, Reading::TRUE)
}

fn answered_by(operation: Operation, book: &[u8], tape: &[u8], reading: Reading) -> Answer {
    let mut call = Call::new(operation);
    call.book = book.to_vec();
    call.tape = tape.to_vec();
    let (scratch, lines) = (LONGEST + 1, MOST_WORDS);
    call.lengths = Lengths { rows: 16_384, sets: 512, scratch, out: MOST_OUT, origins: MOST_OUT, lines };
    answer(&call, reading)
}

/// The one refusal that a random valid book can meet.
fn has_too_many_sets(answer: &Answer) -> bool {
    assert!(matches!(answer.reply, 0 | 13 | 14));
    answer.reply != 0
}

/// A random book with a tape of at most `LONGEST` symbols.
fn drawn(number: u64) -> (Vec<u8>, Vec<u8>) {
    let chance = &mut Chance::of(77, number);
    let alphabet = Alphabet::of(chance);
    let rules = rules::rules(&alphabet, chance);
    let mut tape = tapes::tape(&rules, &alphabet, chance);
    tape.truncate(LONGEST);
    (draft::mixed_records(&rules, chance).concat(), tape)
}

#[test]
fn candidates_taken_output_and_account() {
    let (mut with_candidates, mut with_several, mut with_marks, mut with_empty) = (0, 0, [0; 2], [0; 8]);
    for number in 0..BOOKS {
        let (bytes, tape) = drawn(number);
        let book = book::read(&bytes, Reading::TRUE).expect("a valid book");
        let candidates = candidates(&book, &tape);
        let taken = taken(&candidates);
        let output = literal_output(&book, &tape, &taken);
        for stretches in [Stretches::plainly(&book, &tape, Reading::TRUE), Stretches::fast(&book, &tape)] {
            let triples =
                |stretches: &[Stretch]| -> Vec<_> { stretches.iter().map(|s| (s.start, s.end, s.rule)).collect() };
            let mut listed = triples(&stretches.listed);
            listed.sort_unstable();
            assert_eq!((stretches.count, &listed), (candidates.len(), &candidates), "book {number}");
            assert_eq!(triples(&stretches.taken), taken, "book {number}");
        }
        let lines: Vec<u16> = candidates.iter().flat_map(|candidate| line(*candidate, &taken)).collect();
        let rewritten = answered(Operation::Rewrite, &bytes, &tape);
        if has_too_many_sets(&rewritten) {
            continue;
        }
        assert_eq!(rewritten.counts, [output.len() as u64, taken.len() as u64, 0, 0], "book {number}");
        let pairs: Vec<(u8, u16)> = rewritten.lent.out.into_iter().zip(rewritten.lent.origins).collect();
        assert_eq!(pairs[..output.len()], output, "book {number}");
        let accounted = answered(Operation::Account, &bytes, &tape);
        assert_eq!(accounted.counts[0] as usize, candidates.len(), "book {number}");
        assert_eq!(accounted.lent.lines[..lines.len()], lines, "book {number}");
        with_candidates += u64::from(!candidates.is_empty());
        with_several += u64::from(candidates.len() > taken.len());
        with_marks[0] += u64::from(has_mark(&book, &taken, 2));
        with_marks[1] += u64::from(has_mark(&book, &taken, 3));
        let ways = ways_of_empty(tape.len(), &candidates, &taken);
        with_empty.iter_mut().zip(ways).for_each(|(books, way)| *books += u64::from(way));
    }
    assert!(with_candidates > BOOKS / 3 && with_several > BOOKS / 6, "{with_candidates} {with_several}");
    assert!(with_marks[0] > BOOKS / 6 && with_marks[1] > BOOKS / 10, "{with_marks:?}");
    // The fourth way needs an empty tape, which is seldom drawn.
    let least = |way: usize| if way == 3 { BOOKS / 200 } else { BOOKS / 10 };
    assert!((0..8).all(|way| with_empty[way] > least(way)), "{with_empty:?}");
}

/// Output symbols with their origins, without the inserted words, which are the first symbols with their origin.
fn without_inserted(book: &Book, taken: &[Stretch], output: Output) -> Vec<(u8, u16)> {
    let mut pairs: Vec<(u8, u16)> = output.symbols.into_iter().zip(output.origins).collect();
    for inserted in taken.iter().filter(|taken| taken.is_empty()) {
        for symbol in &book.words[inserted.rule] {
            let first = pairs.iter().position(|(_, origin)| usize::from(*origin) == inserted.start);
            assert_eq!(first.map(|at| pairs.remove(at).0), Some(*symbol));
        }
    }
    pairs
}

/// "Marks put in without removing anything": if empty candidates were none, the same longer stretches would be taken,
/// the account would have the same other lines, and the output would be the same without the inserted words.
#[test]
fn insertions_change_nothing_else() {
    let mut inserted = [0; 2];
    for number in 0..BOOKS {
        let (bytes, tape) = drawn(number);
        let book = book::read(&bytes, Reading::TRUE).expect("a valid book");
        let [with, without] = [Reading::TRUE, Reading::with(Wrong::NoEmptyCandidate)]
            .map(|reading| Stretches::plainly(&book, &tape, reading));
        let longer: Vec<Stretch> = with.taken.iter().copied().filter(|taken| !taken.is_empty()).collect();
        assert_eq!(longer, without.taken, "book {number}");
        let [new, old] = [&with, &without].map(|stretches| account::lines(stretches, Reading::TRUE));
        let other: Vec<Line> = new.into_iter().filter(|line| line[1] < line[2]).collect();
        assert_eq!(other, old, "book {number}");
        let [new, old] =
            [&with, &without].map(|stretches| output::output(&book, &tape, &stretches.taken, Reading::TRUE));
        let old: Vec<(u8, u16)> = old.symbols.into_iter().zip(old.origins).collect();
        assert_eq!(without_inserted(&book, &with.taken, new), old, "book {number}");
        inserted[usize::from(with.taken != without.taken)] += 1;
    }
    assert!(inserted.iter().all(|books| *books > BOOKS / 6), "{inserted:?}");
}

/// Each origin is at least the one before; not so if the first symbol of a mark had the last position.
#[test]
fn origins_never_fall() {
    let mut fallen = 0;
    for number in 0..BOOKS {
        let (bytes, tape) = drawn(number);
        let book = book::read(&bytes, Reading::TRUE).expect("a valid book");
        let taken = Stretches::plainly(&book, &tape, Reading::TRUE).taken;
        let fall = |reading: Reading| {
            let origins = output::output(&book, &tape, &taken, reading).origins;
            origins.windows(2).any(|pair| pair[0] > pair[1])
        };
        assert!(!fall(Reading::TRUE), "book {number}");
        fallen += u64::from(fall(Reading::with(Wrong::FirstAtLast)));
    }
    assert!(fallen > BOOKS / 6, "{fallen}");
}

/// "Outputs, accounts .. stay as they are", and origins too but for marks of two or more symbols on stretches of two or
/// more.
#[test]
fn time_of_a_mark_alone_is_new() {
    let mut marks = 0;
    for number in 0..BOOKS {
        let (bytes, tape) = drawn(number);
        let both = |operation: Operation| {
            [Reading::TRUE, Reading::with(Wrong::AllAtStart)]
                .map(|reading| answered_by(operation, &bytes, &tape, reading))
        };
        let [new, old] = both(Operation::Account);
        assert_eq!(new, old, "book {number}");
        let [new, old] = both(Operation::Rewrite);
        if has_too_many_sets(&new) {
            continue;
        }
        let book = book::read(&bytes, Reading::TRUE).expect("a valid book");
        let is_new = has_mark(&book, &taken(&candidates(&book, &tape)), 2);
        assert_eq!(new.lent.origins != old.lent.origins, is_new, "book {number}");
        let lent = Lent { origins: new.lent.origins.clone(), ..old.lent };
        assert_eq!(new, Answer { lent, ..old }, "book {number}");
        marks += u64::from(is_new);
    }
    assert!(marks > BOOKS / 6 && BOOKS - marks > BOOKS / 6, "{marks}");
}

/// The literal lines name rules that beat the candidate, and by each verdict but 0 often another one than its own.
#[test]
fn deciding_rules() {
    let mut by_another = [0; 4];
    for number in 0..BOOKS {
        let (bytes, tape) = drawn(number);
        let candidates = candidates(&book::read(&bytes, Reading::TRUE).expect("a valid book"), &tape);
        let taken = taken(&candidates);
        for candidate in &candidates {
            let [rule, _, _, verdict, deciding_start, deciding_rule] = line(*candidate, &taken).map(usize::from);
            assert_eq!(deciding_rule, rule_taken_at(deciding_start, &candidates), "book {number}");
            by_another[verdict] += u64::from(rule != deciding_rule);
        }
    }
    let [own, others @ ..] = by_another;
    assert!(own == 0 && others.iter().all(|lines| *lines > BOOKS / 10), "{by_another:?}");
}

#[test]
fn sets_rows_and_scratch() {
    for number in 0..BOOKS {
        let (bytes, tape) = drawn(number);
        let book = book::read(&bytes, Reading::TRUE).expect("a valid book");
        let left: Vec<u64> = (0..=tape.len()).map(|i| literal_left_set(&book, &tape, i)).collect();
        let right: Vec<u64> = (0..=tape.len()).map(|i| literal_right_set(&book, &tape, i)).collect();
        for i in 0..=tape.len() {
            assert_eq!(left_set(&book, &tape, i, Reading::TRUE), left[i], "book {number}");
            assert_eq!(right_set(&book, &tape, i, Reading::TRUE), right[i], "book {number}");
        }
        assert_eq!(fast::sets::right_sets(&book, &tape), right, "book {number}");
        let answer = answered(Operation::Rewrite, &bytes, &tape);
        if has_too_many_sets(&answer) {
            continue;
        }
        let scratch = answer.lent.scratch.iter().map(|number| answer.lent.sets[256 + *number as usize]);
        assert!(scratch.zip(&right).all(|(numbered, set)| numbered == *set), "book {number}");
        follow_rows(&answer, 0, tape.iter().copied(), left.iter().copied());
        follow_rows(&answer, 256, tape.iter().rev().copied(), right.iter().rev().copied());
    }
}

/// Following the rows of a side over the tape must meet the sets in turn, beginning with number 0.
fn follow_rows(answer: &Answer, first: usize, symbols: impl Iterator<Item = u8>, mut sets: impl Iterator<Item = u64>) {
    let mut number = 0;
    assert_eq!(Some(answer.lent.sets[first]), sets.next());
    for (symbol, set) in symbols.zip(sets) {
        number = answer.lent.rows[(first + number) * 32 + symbol as usize] as usize;
        assert_eq!(answer.lent.sets[first + number], set);
    }
}

/// "the next set not met before gets the next number": read row by row, new numbers come up in order.
#[test]
fn numbers_come_up_in_order() {
    for number in 0..BOOKS {
        let (bytes, _) = drawn(number);
        let answer = answered(Operation::Build, &bytes, &[]);
        for side in [0, 1] {
            let count = answer.counts[side] as usize;
            let rows = &answer.lent.rows[side * 8192..][..count * 32];
            let last = rows.iter().fold(0, |met, next| {
                assert!(*next as usize <= met + 1, "book {number}");
                met.max(*next as usize)
            });
            assert!(count == 0 || last + 1 == count, "book {number}");
            let sets = &answer.lent.sets[side * 256..][..count];
            assert!((1..count).all(|at| !sets[..at].contains(&sets[at])), "book {number}");
        }
    }
}
