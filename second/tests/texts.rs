//! What document 02, No. 7, speaks of is met by the fixed-seed run in every way and often.

use second::answer::Answer;
use second::call::{Call, Operation};
use second::generate::calls::call;
use second::import::Import;
use second::operations::answer;
use second::reading::Reading;
use second::text::Said;

const SEED: u64 = 1;
const CALLS: u64 = 20_000;

/// A call of IMPORT with its answer.
struct Met {
    call: Call,
    answer: Answer,
}

impl Met {
    /// The bytes of each line, with its newline.
    fn lines(&self) -> impl Iterator<Item = &[u8]> {
        self.call.book.split_inclusive(|byte| *byte == b'\n')
    }

    /// The line that the place of a refusal from 18 to 20 names.
    fn faulty_line(&self) -> &[u8] {
        let rest = &self.call.book[self.answer.place as usize..];
        rest.split_inclusive(|byte| *byte == b'\n').next().unwrap_or(rest)
    }

    fn is_refused(&self, reply: u8, wanted: impl Fn(&[u8]) -> bool) -> bool {
        self.answer.reply == reply && wanted(self.faulty_line())
    }

    /// How many lines stand before and after the faulty one.
    fn lines_around(&self) -> (usize, usize) {
        let before = self.call.book[..self.answer.place as usize].iter().filter(|byte| **byte == b'\n').count();
        (before, self.lines().count() - before - 1)
    }

    fn said(&self) -> Vec<Said> {
        Import::of(&self.call, Reading::TRUE).text.said
    }

    fn states_and_arcs(&self) -> (usize, usize) {
        let part = Import::of(&self.call, Reading::TRUE).part;
        (part.flags.len(), part.arcs.len())
    }

    fn is_accepted(&self, wanted: impl Fn(&[Said]) -> bool) -> bool {
        self.answer.reply == 0 && wanted(&self.said())
    }
}

fn met() -> Vec<Met> {
    let calls = (0..CALLS).map(|number| call(SEED, number)).filter(|call| call.operation == Operation::Import);
    calls.map(|call| Met { answer: answer(&call, Reading::TRUE), call }).collect()
}

/// At least so many of them are as wanted.
fn at_least(least: usize, what: &str, of: &[Met], wanted: impl Fn(&Met) -> bool) {
    let count = of.iter().filter(|met| wanted(met)).count();
    println!("{count} of {}: {what}", of.len());
    assert!(count >= least, "{count} of {}: {what}", of.len());
}

fn has_digits_of(line: &[u8], digits: usize) -> bool {
    line.split(|byte| !byte.is_ascii_digit()).any(|number| number.len() >= digits)
}

#[test]
fn every_reply() {
    let met = met();
    for (reply, least) in [(0, 400), (5, 100), (15, 80), (18, 400), (19, 100), (20, 100), (21, 100)] {
        at_least(least, &format!("reply {reply}"), &met, |met| met.answer.reply == reply);
    }
    for reply in 18..=20 {
        at_least(30, &format!("{reply} in the first line of several"), &met, |met| {
            met.answer.reply == reply && matches!(met.lines_around(), (0, 1..))
        });
        at_least(30, &format!("{reply} in a later line"), &met, |met| {
            met.answer.reply == reply && met.lines_around().0 > 0
        });
    }
    for part in 0..4 {
        at_least(50, &format!("part {part}"), &met, |met| met.call.part() == part);
    }
    at_least(30, "part 255", &met, |met| met.call.part() == 255);
    at_least(10, "something above the first number", &met, |met| met.call.line > 0xffff);
}

#[test]
fn faulty_lines() {
    let met = met();
    let fields = |line: &[u8]| line.iter().filter(|byte| **byte == b'\t').count() + 1;
    let is_ended = |line: &[u8]| line.ends_with(b"\n");
    let is_clean = |line: &[u8]| line.iter().all(|byte| byte.is_ascii_digit() || b"\t\n".contains(byte));
    at_least(40, "two fields", &met, |met| met.is_refused(20, |line| fields(line) == 2));
    at_least(40, "four fields", &met, |met| met.is_refused(20, |line| fields(line) == 4));
    at_least(40, "garbage in these", &met, |met| met.is_refused(20, |line| !is_clean(line)));
    at_least(5, "no newline after these", &met, |met| met.is_refused(20, |line| !is_ended(line)));
    at_least(10, "five fields", &met, |met| met.is_refused(18, |line| fields(line) == 5));
    at_least(10, "six fields or more", &met, |met| met.is_refused(18, |line| fields(line) >= 6));
    at_least(40, "a missing newline alone", &met, |met| met.is_refused(18, |line| is_clean(line) && !is_ended(line)));
    at_least(40, "an empty line", &met, |met| met.is_refused(18, |line| line == b"\n"));
    let has_empty_field =
        |line: &[u8]| line.trim_ascii_end().len() < line.len() - 1 || line.windows(2).any(|two| two == b"\t\t");
    at_least(10, "an empty field of three", &met, |met| {
        met.is_refused(18, |line| is_clean(line) && fields(line) == 3 && has_empty_field(line))
    });
    for byte in *b"\r +-x\0" {
        let what = format!("a line with {:?}", char::from(byte));
        at_least(10, &what, &met, |met| met.is_refused(18, |line| line.contains(&byte)));
    }
    let named =
        |line: &[u8], number: &str| line.split(|byte| b"\t\n".contains(byte)).any(|field| field == number.as_bytes());
    for state in ["65536", "65537"] {
        at_least(10, &format!("state {state}"), &met, |met| met.is_refused(18, |line| named(line, state)));
    }
    at_least(20, "a state beyond 32 bits", &met, |met| {
        met.is_refused(18, |line| is_clean(line) && has_digits_of(line, 10))
    });
    at_least(10, "a state beyond 64 bits", &met, |met| {
        met.is_refused(18, |line| is_clean(line) && has_digits_of(line, 20))
    });
    let label = |line: &[u8], label: &str| line.ends_with(format!("\t{label}\n").as_bytes());
    for zero_or_past in ["0", "33", "256"] {
        let refused = |met: &Met| met.is_refused(19, |line| label(line, zero_or_past));
        at_least(10, &format!("label {zero_or_past}"), &met, refused);
    }
    at_least(10, "a label beyond 32 bits", &met, |met| met.is_refused(19, |line| has_digits_of(line, 10)));
    at_least(5, "a label beyond 64 bits", &met, |met| met.is_refused(19, |line| has_digits_of(line, 20)));
    let zero_and_large =
        |line: &[u8]| label(line, "0") && is_clean(line) && fields(line) == 3 && has_digits_of(line, 5);
    at_least(5, "label 0 beside a large state", &met, |met| met.is_refused(18, zero_and_large));
}

#[test]
fn limits_and_rooms() {
    let met = met();
    let (mut first, mut met_first) = ([false; 256], 0);
    for met in &met {
        met_first += usize::from(!std::mem::replace(&mut first[met.call.first() as usize], true));
    }
    assert!(met_first > 120, "{met_first} first numbers");
    for (states, replies) in [(64, [0, 15]), (65, [21, 21])] {
        let is = |met: &Met| replies.contains(&met.answer.reply) && met.states_and_arcs().0 == states;
        at_least(10, &format!("{states} states"), &met, is);
    }
    for (arcs, replies) in [(512, [0, 15]), (513, [21, 21])] {
        let is = |met: &Met| replies.contains(&met.answer.reply) && met.states_and_arcs().1 == arcs;
        at_least(10, &format!("{arcs} arcs"), &met, is);
    }
    for (last, replies) in [(63, [0, 15]), (64, [21, 21])] {
        let number = |met: &Met| met.call.first() as usize + met.states_and_arcs().0 - 1;
        let is = |met: &Met| replies.contains(&met.answer.reply) && number(met) == last;
        at_least(100, &format!("state number {last}"), &met, is);
    }
    let needed = |met: &Met| Import::of(&met.call, Reading::TRUE).needed();
    at_least(30, "one byte short", &met, |met| met.answer.reply == 15 && met.call.lengths.out + 1 == needed(met));
    at_least(100, "exact room", &met, |met| met.answer.reply == 0 && met.call.lengths.out == needed(met));
    at_least(100, "more room", &met, |met| met.answer.reply == 0 && met.call.lengths.out > needed(met));
    at_least(20, "21 without room", &met, |met| met.answer.reply == 21 && met.call.lengths.out < needed(met));
    let is_faulty = |met: &Met| matches!(met.answer.reply, 18..=20);
    at_least(20, "a fault and too many states or arcs", &met, |met| {
        let (states, arcs) = met.states_and_arcs();
        is_faulty(met) && (met.call.first() as usize + states > 64 || arcs > 512)
    });
    for (reply, first) in [(0, 0..64), (21, 64..256)] {
        at_least(10, &format!("an empty text with {reply}"), &met, |met| {
            met.call.book.is_empty() && met.answer.reply == reply && first.contains(&usize::from(met.call.first()))
        });
    }
}

#[test]
fn accepted_texts() {
    let met = met();
    let is_final = |said: &Said| matches!(said, Said::Final(_));
    let loops = |said: &Said| matches!(said, Said::Arc { source, destination, .. } if source == destination);
    let times = |all: &[Said], one: &Said| all.iter().filter(|other| *other == one).count();
    at_least(100, "zeros in front", &met, |met| {
        met.answer.reply == 0
            && met.lines().any(|line| line.starts_with(b"0") && line.len() > 2 && line[1].is_ascii_digit())
    });
    at_least(100, "a final state first", &met, |met| met.is_accepted(|said| said.first().is_some_and(is_final)));
    at_least(100, "an arc first", &met, |met| met.is_accepted(|said| said.first().is_some_and(|said| !is_final(said))));
    at_least(100, "a state named as final alone", &met, |met| {
        met.is_accepted(|said| {
            let by_arc = |state: u64| said.iter().any(|said| !is_final(said) && said.states().contains(&state));
            said.iter().any(|said| is_final(said) && !by_arc(said.states()[0]))
        })
    });
    at_least(30, "a final state twice", &met, |met| {
        met.is_accepted(|said| said.iter().any(|one| is_final(one) && times(said, one) > 1))
    });
    at_least(30, "an arc twice", &met, |met| {
        met.is_accepted(|said| said.iter().any(|one| !is_final(one) && times(said, one) > 1))
    });
    at_least(100, "the same source and destination", &met, |met| met.is_accepted(|said| said.iter().any(loops)));
    let names = |met: &Met, state: u64| met.is_accepted(|said| said.iter().any(|said| said.states().contains(&state)));
    at_least(30, "state 65535", &met, |met| names(met, 65_535));
    at_least(100, "state 0", &met, |met| names(met, 0));
    for label in 1..=32 {
        let least = if [1, 16, 17, 32].contains(&label) { 50 } else { 15 };
        at_least(least, &format!("label {label}"), &met, |met| {
            met.is_accepted(|said| said.iter().any(|said| said.label() == Some(label)))
        });
    }
}
