//! Wrong readings of IMPORT: document 02, No. 7. Without one, each of these leaves what `import` says. Those of the text
//! itself are in `wrong_text`.

use std::collections::BTreeSet;

use crate::answer::Lent;
use crate::book::{Refusal, HIGHEST_SYMBOL, MOST_ARCS, MOST_STATES};
use crate::draft::{Arc, Part};
use crate::import::{arcs, finals, named, part, records, Import, HIGHEST_PART};
use crate::reading::{Reading, Wrong};
use crate::record::{self, ACCEPT, BOTH, FOCUS, START};
use crate::room::write_front;
use crate::text::{lines, Said, Text};

/// What the lines say before the first faulty one alone; or a fault where there is none.
pub fn leave_text(text: &mut Text, bytes: &[u8], reading: Reading) {
    if reading.is(Wrong::EmptyTextRefused) && bytes.is_empty() {
        text.faults.push(Refusal { reply: 18, place: 0 });
    }
    let until_fault = reading.is(Wrong::LimitByLine) || reading.is(Wrong::FaultWritesFront);
    if let (true, Some(fault)) = (until_fault, text.faults.first()) {
        text.said.truncate(lines(bytes).iter().take_while(|line| line.offset < fault.place).count());
    }
}

pub fn highest_part(reading: Reading) -> u8 {
    let highest = reading.value(HIGHEST_PART, Wrong::PartThreeAccepted, HIGHEST_PART + 1);
    let highest = reading.value(highest, Wrong::PartTwoRefused, HIGHEST_PART - 1);
    reading.value(highest, Wrong::PartUntested, u8::MAX)
}

/// The states of an empty text by the wrong reading that is put in, if that is one of these.
pub fn flags_of_empty(reading: Reading) -> Option<Vec<u8>> {
    let instead = [
        (Wrong::EmptyTextBare, vec![]),
        (Wrong::EmptyTextStarts, vec![START]),
        (Wrong::EmptyTextAccepts, vec![ACCEPT]),
        (Wrong::EmptyTextIsAny, vec![BOTH]),
    ];
    instead.into_iter().find(|(wrong, _)| reading.is(*wrong)).map(|(_, flags)| flags)
}

/// The states in another order, fewer or more of them.
pub fn named_instead(said: &[Said], reading: Reading) -> Option<Vec<u64>> {
    let is = |wrong: Wrong| reading.is(wrong);
    let all = named(said);
    let of_arcs = || said.iter().filter(|said| said.label().is_some()).flat_map(|said| said.states());
    let backward = |said: &Said| said.states().into_iter().rev().collect::<Vec<_>>();
    match () {
        _ if is(Wrong::DestinationFirst) => Some(said.iter().flat_map(backward).collect()),
        _ if is(Wrong::SourcesFirst) => Some(said.iter().map(|said| said.states()[0]).chain(all).collect()),
        _ if is(Wrong::LastAppearanceFirst) => Some(all.into_iter().rev().collect()),
        _ if is(Wrong::FinalsFirst) => Some(finals(said).into_iter().chain(all).collect()),
        _ if is(Wrong::FinalsLast) => Some(of_arcs().chain(all).collect()),
        _ if is(Wrong::FinalAloneForgotten) => Some(of_arcs().collect()),
        _ if is(Wrong::LowestNumberedFirst) => Some(all.into_iter().collect::<BTreeSet<_>>().into_iter().collect()),
        _ if is(Wrong::NumbersKept) => Some((0..=all.into_iter().max().unwrap_or(0)).collect()),
        _ => None,
    }
}

/// Another start, or none.
pub fn start_instead(said: &[Said], reading: Reading) -> Option<Option<u64>> {
    let is = |wrong: Wrong| reading.is(wrong);
    let first_of = |said: &Said| said.states()[0];
    let arc = said.iter().find(|said| said.label().is_some());
    match () {
        _ if is(Wrong::StartOfSecondLine) => Some(said.get(1).or(said.first()).map(first_of)),
        _ if is(Wrong::StartOfLastLine) => Some(said.last().map(first_of)),
        _ if is(Wrong::StartOfFirstArc) => Some(arc.or(said.first()).map(first_of)),
        _ if is(Wrong::StartAtDestination) => Some(said[0].states().last().copied()),
        _ if is(Wrong::FinalNoStart) => Some(said.first().filter(|said| said.label().is_some()).map(first_of)),
        _ if is(Wrong::LowestIsStart) => Some(named(said).into_iter().min()),
        _ if is(Wrong::ZeroIsStart) => Some(Some(0)),
        _ => None,
    }
}

/// Other final states.
pub fn finals_instead(said: &[Said], reading: Reading) -> Option<Vec<u64>> {
    let all = finals(said);
    let times = |state: &u64| all.iter().filter(|other| *other == state).count();
    match () {
        _ if reading.is(Wrong::FirstFinalAlone) => Some(all.first().copied().into_iter().collect()),
        _ if reading.is(Wrong::LastFinalAlone) => Some(all.last().copied().into_iter().collect()),
        _ if reading.is(Wrong::FinalTwiceIsNone) => {
            Some(all.iter().copied().filter(|state| times(state) % 2 == 1).collect())
        }
        _ => None,
    }
}

/// The lowest and highest symbol of an arc.
pub fn symbols_instead(label: u64, reading: Reading) -> Option<(u8, u8)> {
    let (same, symbol) = (label as u8, label.saturating_sub(1) as u8);
    let instead = [
        (Wrong::LabelIsSymbol, (same, same)),
        (Wrong::LabelsFromZero, (same, same)),
        (Wrong::ArcToHighest, (symbol, HIGHEST_SYMBOL)),
        (Wrong::ArcFromLowest, (0, symbol)),
    ];
    instead.into_iter().find(|(wrong, _)| reading.is(*wrong)).map(|(_, symbols)| symbols)
}

/// Flags and arcs that are other ones than those drawn.
pub fn leave_part(part: &mut Part, said: &[Said], reading: Reading) {
    let is = |wrong: Wrong| reading.is(wrong);
    let both = reading.value(reading.value(BOTH, Wrong::FinalStartAccepts, ACCEPT), Wrong::FinalStartStarts, START);
    part.flags.iter_mut().filter(|flags| **flags == BOTH).for_each(|flags| *flags = both);
    let fields = |arc: &Arc| (arc.from, arc.lowest, arc.highest, arc.to);
    if is(Wrong::ZeroLabelDropped) {
        let mut labels = said.iter().filter_map(|said| said.label());
        part.arcs.retain(|_| labels.next() != Some(0));
    }
    if is(Wrong::RepeatedArcsOnce) {
        let all = part.arcs.clone();
        let mut at = 0..all.len();
        let is_new = |at: usize| all[..at].iter().all(|other| fields(other) != fields(&all[at]));
        part.arcs.retain(|_| at.next().is_some_and(is_new));
    }
    if is(Wrong::ArcsJoined) {
        part.arcs = joined(&part.arcs);
    }
    if is(Wrong::ArcsBySource) {
        part.arcs.sort_by_key(|arc| arc.from);
    }
    if is(Wrong::ArcsBackward) {
        part.arcs.reverse();
    }
    if is(Wrong::ArcsTurned) {
        part.arcs.iter_mut().for_each(|arc| (arc.from, arc.to) = (arc.to, arc.from));
    }
}

/// Arcs one after another between the same states, each with the next symbol, made one.
fn joined(arcs: &[Arc]) -> Vec<Arc> {
    let mut joined: Vec<Arc> = Vec::new();
    for arc in arcs {
        match joined.last_mut() {
            Some(last) if (last.from, last.to, last.highest + 1) == (arc.from, arc.to, arc.lowest) => {
                last.highest = arc.highest;
            }
            _ => joined.push(*arc),
        }
    }
    joined
}

impl Import<'_> {
    /// Whether 21 is given, by the wrong reading that is put in, if that is one of these.
    pub fn is_past_limits_instead(&self) -> Option<bool> {
        if self.reading.is_true() {
            return None;
        }
        let (arcs, states, first) = (self.part.arcs.len(), self.part.flags.len(), self.first());
        let (many_arcs, many_states) = (arcs > MOST_ARCS, first + states > MOST_STATES);
        let instead = [
            (Wrong::ImportOf511Arcs, arcs >= MOST_ARCS || many_states),
            (Wrong::ImportOf513Arcs, arcs > MOST_ARCS + 1 || many_states),
            (Wrong::NumberTo62, many_arcs || first + states >= MOST_STATES),
            (Wrong::NumberTo64, many_arcs || first + states > MOST_STATES + 1),
            (Wrong::LimitOfArcsAlone, many_arcs),
            (Wrong::LimitOfStatesAlone, many_states),
            (Wrong::StatesWithoutFirst, many_arcs || states > MOST_STATES),
            (Wrong::FirstAlone, many_arcs || states > MOST_STATES || first >= MOST_STATES),
            (Wrong::FirstWraps, many_arcs || (first + states) as u8 as usize > MOST_STATES),
            (Wrong::EmptyTextUnnumbered, (many_arcs || many_states) && !self.call.book.is_empty()),
        ];
        instead.into_iter().find(|(wrong, _)| self.reading.is(*wrong)).map(|(_, past)| past)
    }

    /// The line that passes a limit.
    pub fn place_of_limit(&self) -> Option<usize> {
        if !self.reading.is(Wrong::LimitAtLine) {
            return None;
        }
        let is_past = |lines: &usize| {
            let part = part(&self.text.said[..*lines], Reading::TRUE);
            part.arcs.len() > MOST_ARCS || self.first() + part.flags.len() > MOST_STATES
        };
        let counts: Vec<usize> = (1..=self.text.said.len()).collect();
        let last = counts.partition_point(|count| !is_past(count));
        lines(&self.call.book).get(last).map(|line| line.offset)
    }

    /// The bytes for which there must be room.
    pub fn enough_instead(&self) -> Option<usize> {
        let state = record::state(0, 0).len() * self.part.flags.len();
        let instead = [
            (Wrong::ImportRoomExactRefused, self.needed() + 1),
            (Wrong::ArcsUnmeasured, state),
            (Wrong::StatesUnmeasured, self.needed() - state),
        ];
        instead.into_iter().find(|(wrong, _)| self.reading.is(*wrong)).map(|(_, enough)| enough)
    }

    /// The place of 15.
    pub fn place_of_room(&self) -> Option<usize> {
        let instead = [
            (Wrong::ImportRoomMissing, self.needed().saturating_sub(self.call.lengths.out)),
            (Wrong::ImportRoomInRecords, self.written().len()),
        ];
        instead.into_iter().find(|(wrong, _)| self.reading.is(*wrong)).map(|(_, place)| place)
    }

    /// Other records, or in another order.
    pub fn written_instead(&self) -> Option<Vec<Vec<u8>>> {
        let is = |wrong: Wrong| self.reading.is(wrong);
        let (number, first) = (self.number(), self.first());
        let states = || self.part.flags.iter().map(|flags| record::state(number, *flags));
        let turned = |mut record: Vec<u8>| {
            record[2..].rotate_right(1);
            record
        };
        match () {
            _ if is(Wrong::ArcsBeforeStates) => Some(arcs(&self.part, first).chain(states()).collect()),
            _ if is(Wrong::RecordsInTextOrder) => Some(self.in_text_order()),
            _ if is(Wrong::ArcsFromZero) => Some(states().chain(arcs(&self.part, 0)).collect()),
            _ if is(Wrong::ArcStatesFirst) => Some(states().chain(arcs(&self.part, first).map(turned)).collect()),
            _ if is(Wrong::WrittenAsFocus) => Some(records(&self.part, FOCUS, first)),
            _ if is(Wrong::FlagsBeforePart) => {
                let swapped = self.part.flags.iter().map(|flags| record::state(*flags, number));
                Some(swapped.chain(arcs(&self.part, first)).collect())
            }
            _ if is(Wrong::EndWritten) => Some([records(&self.part, number, first), vec![record::end()]].concat()),
            _ => None,
        }
    }

    /// Each arc right after the states that it is the first to need, the others last.
    fn in_text_order(&self) -> Vec<Vec<u8>> {
        let mut states =
            self.part.flags.iter().map(|flags| record::state(self.number(), *flags)).enumerate().peekable();
        let mut written = Vec::new();
        for (arc, record) in self.part.arcs.iter().zip(arcs(&self.part, self.first())) {
            while let Some((_, state)) = states.next_if(|(at, _)| *at <= arc.from.max(arc.to)) {
                written.push(state);
            }
            written.push(record);
        }
        written.extend(states.map(|(_, state)| state));
        written
    }

    pub fn reading_of_write(&self) -> Reading {
        self.reading.value(self.reading, Wrong::ImportClearsRest, Reading::with(Wrong::OutputClearsRest))
    }

    /// For wrong readings of "nothing written".
    pub fn left_by_refusal(&self, refusal: Refusal, lent: &mut Lent) {
        if self.reading.is_true() {
            return;
        }
        let is = |wrong: Wrong| self.reading.is(wrong);
        let records = records(&self.part, self.number(), self.first());
        let (whole, front) = (whole_records(&records, lent.out.len()), records.concat());
        match refusal.reply {
            _ if is(Wrong::ImportRefusalClears) => lent.out.fill(0),
            15 if is(Wrong::ImportWritesFront) => write_front(&mut lent.out, &front, Reading::TRUE),
            15 if is(Wrong::ImportWritesRecords) => write_front(&mut lent.out, &whole, Reading::TRUE),
            21 if is(Wrong::LimitWritesFront) => write_front(&mut lent.out, &front, Reading::TRUE),
            18..=20 if is(Wrong::FaultWritesFront) && !self.text.said.is_empty() => {
                write_front(&mut lent.out, &front, Reading::TRUE);
            }
            _ => {}
        }
    }
}

/// As many whole records as there is room for.
fn whole_records(records: &[Vec<u8>], room: usize) -> Vec<u8> {
    let mut whole: Vec<u8> = Vec::new();
    for record in records {
        if whole.len() + record.len() > room {
            break;
        }
        whole.extend(record);
    }
    whole
}
