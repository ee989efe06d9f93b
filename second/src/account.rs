//! The account: document 01, "The account and SHOW", and document 02, No. 1 and No. 5.

use crate::candidates::Stretch;
use crate::reading::{Reading, Wrong};
use crate::stretches::Stretches;
use crate::wrong_insertion::{wrong_order, wrongly_around};

/// "Five 16-bit words a candidate: rule, start, end, verdict, deciding start." Document 02, No. 1: "A sixth word gives
/// the rule of the deciding stretch".
pub const WORDS_A_LINE: usize = 6;
/// A line without its sixth word, as document 01 alone has it; wrong readings keep to it.
pub const FIVE_WORDS: usize = WORDS_A_LINE - 1;
pub type Line = [u16; WORDS_A_LINE];

const TAKEN: u16 = 0;
const SHORTER: u16 = 1;
const LOWER_RULE_TAKEN: u16 = 2;
const INSIDE: u16 = 3;
const NOT_TAKEN: [u16; 3] = [SHORTER, LOWER_RULE_TAKEN, INSIDE];

/// How many lines the account has.
pub fn length(stretches: &Stretches, reading: Reading) -> usize {
    reading.value(stretches.count, Wrong::TakenLinesAlone, stretches.taken.len())
}

/// All lines; to be asked for only when there is room for them.
pub fn lines(stretches: &Stretches, reading: Reading) -> Vec<Line> {
    let mut all = reading.value(&stretches.listed, Wrong::TakenLinesAlone, &stretches.taken).clone();
    all.sort_by_key(|stretch| order(stretch, reading));
    all.iter().map(|stretch| line(*stretch, stretches, reading)).collect()
}

/// "Order: start, end, rule."
fn order(stretch: &Stretch, reading: Reading) -> [usize; 3] {
    let Stretch { rule, start, end } = *stretch;
    let order = reading.value([start, end, rule], Wrong::OrderRuleBeforeEnd, [start, rule, end]);
    let order = reading.value(order, Wrong::OrderRuleFirst, [rule, start, end]);
    let order = reading.value(order, Wrong::LongestLineFirst, [start, usize::MAX - end, rule]);
    wrong_order(*stretch, reading).unwrap_or(order)
}

/// A candidate, its verdict, and the taken stretch that decides it.
#[derive(Clone, Copy)]
struct Decided {
    candidate: Stretch,
    verdict: u16,
    deciding: Stretch,
}

fn line(candidate: Stretch, stretches: &Stretches, reading: Reading) -> Line {
    let decided = decided(candidate, &stretches.taken, reading);
    let Stretch { rule, start, end } = candidate;
    let by = [deciding_start(decided, reading), deciding_rule(decided, stretches, reading)];
    let [fifth, sixth] = reading.value(by, Wrong::DecidingWordsSwapped, [by[1], by[0]]);
    [rule, start, end, decided.verdict as usize, fifth, sixth].map(|word| word as u16)
}

/// The deciding stretch is the last one taken that does not start after the candidate. Document 02, No. 5: "verdict 3
/// still needs a start strictly inside": at the end of a taken stretch a candidate's own start is taken.
fn decided(candidate: Stretch, taken: &[Stretch], reading: Reading) -> Decided {
    if let Some(deciding) = wrongly_around(candidate, taken, reading) {
        return Decided { candidate, verdict: INSIDE, deciding };
    }
    let begun = taken.partition_point(|taken| taken.start <= candidate.start);
    let Some(deciding) = begun.checked_sub(1).map(|last| taken[last]) else {
        // Only a wrong reading leaves a candidate undecided.
        return Decided { candidate, verdict: INSIDE, deciding: candidate };
    };
    let verdict = match deciding.start < candidate.start {
        true => INSIDE,
        false => verdict_at_start(candidate, deciding, reading),
    };
    Decided { candidate, verdict, deciding }
}

/// "The deciding start is that of the taken stretch, its own for 0."
fn deciding_start(decided: Decided, reading: Reading) -> usize {
    let Decided { candidate, verdict, deciding } = decided;
    match verdict {
        INSIDE => reading.value(deciding.start, Wrong::VerdictEndInside, candidate.start),
        _ => deciding.start,
    }
}

/// Document 02, No. 1: "A sixth word gives the rule of the deciding stretch (its own for verdict 0)."
fn deciding_rule(decided: Decided, stretches: &Stretches, reading: Reading) -> usize {
    match decided.verdict {
        TAKEN => reading.value(decided.deciding.rule, Wrong::TakenUndecided, 0),
        _ => wrongly_deciding(decided, stretches, reading).unwrap_or(decided.deciding).rule,
    }
}

/// "0 taken; 1 shorter than the taken one at the same start; 2 same stretch, lower rule taken"
fn verdict_at_start(stretch: Stretch, taken: Stretch, reading: Reading) -> u16 {
    let verdict = if stretch == taken {
        TAKEN
    } else if stretch.end != taken.end {
        SHORTER
    } else {
        LOWER_RULE_TAKEN
    };
    if reading.is(Wrong::VerdictsSwapped) {
        return [TAKEN, LOWER_RULE_TAKEN, SHORTER][verdict as usize];
    }
    if reading.is(Wrong::VerdictTieShorter) && stretch.rule != taken.rule {
        return LOWER_RULE_TAKEN;
    }
    verdict
}

/// A wrong reading of the sixth word, the verdicts that it concerns, and the stretch whose rule stands there instead.
type Instead<'a> = (Wrong, &'a [u16], &'a dyn Fn() -> Option<Stretch>);

/// For wrong readings of the sixth word: the stretch whose rule stands there instead, if there is one.
fn wrongly_deciding(decided: Decided, stretches: &Stretches, reading: Reading) -> Option<Stretch> {
    let Decided { candidate, verdict, deciding } = decided;
    let taken = || stretches.taken.iter().copied();
    let here = || stretches.listed.iter().copied().filter(|other| other.start == candidate.start);
    let longer = || here().filter(|other| other.end > candidate.end);
    let tied_and_lower = || here().filter(|other| other.end == candidate.end && other.rule < candidate.rule);
    let rule = |stretch: &Stretch| stretch.rule;
    let end = |stretch: &Stretch| (stretch.end, stretch.rule);
    let instead: [Instead; 12] = [
        (Wrong::OwnRule, &NOT_TAKEN, &|| Some(candidate)),
        (Wrong::LowestTakenRule, &NOT_TAKEN, &|| taken().min_by_key(rule)),
        (Wrong::HighestTakenRule, &NOT_TAKEN, &|| taken().max_by_key(rule)),
        (Wrong::LastTakenRule, &NOT_TAKEN, &|| taken().last()),
        (Wrong::ShorterLowestRule, &[SHORTER], &|| here().min_by_key(rule)),
        (Wrong::ShorterShortestRule, &[SHORTER], &|| here().min_by_key(end)),
        (Wrong::ShorterNextRule, &[SHORTER], &|| longer().min_by_key(end)),
        (Wrong::TieNextRule, &[LOWER_RULE_TAKEN], &|| tied_and_lower().max_by_key(rule)),
        (Wrong::InsideOwnRule, &[INSIDE], &|| Some(candidate)),
        (Wrong::InsideNextRule, &[INSIDE], &|| taken().find(|taken| taken.start > deciding.start)),
        (Wrong::InsideEarlierRule, &[INSIDE], &|| taken().rfind(|taken| taken.start < deciding.start)),
        (Wrong::InsideRuleAtEnd, &[INSIDE], &|| taken().rfind(|taken| taken.start < candidate.end)),
    ];
    let concerned = instead.iter().find(|(wrong, verdicts, _)| reading.is(*wrong) && verdicts.contains(&verdict));
    concerned.and_then(|(_, _, stretch)| stretch())
}
