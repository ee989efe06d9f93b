//! IMPORT: document 02, No. 7, "Import one such text as one part of a rule, writing its state and arc records". What
//! wrong readings make of it is in `wrong_import`.

use std::collections::HashMap;

use crate::answer::Lent;
use crate::book::{Refusal, MOST_ARCS, MOST_STATES};
use crate::call::Call;
use crate::draft::{Arc, Part};
use crate::reading::{Reading, Wrong};
use crate::record::{self, ACCEPT, NEITHER, RIGHT, START};
use crate::room::write_front;
use crate::text::{Said, Text};
use crate::wrong_import as wrong;

/// "5 for a part above 2"
pub const HIGHEST_PART: u8 = RIGHT;

/// A call of IMPORT with its text read.
pub struct Import<'a> {
    pub call: &'a Call,
    pub text: Text,
    /// The part that the text draws.
    pub part: Part,
    pub reading: Reading,
}

/// The length written.
pub fn import(call: &Call, lent: &mut Lent, reading: Reading) -> Result<usize, Refusal> {
    let import = Import::of(call, reading);
    for reply in order(reading) {
        if let Some(refusal) = import.refusal(reply) {
            import.left_by_refusal(refusal, lent);
            return Err(refusal);
        }
    }
    let written = import.written();
    write_front(&mut lent.out, &written.concat(), import.reading_of_write());
    // "Acceptance returns the length written"
    let length = written.iter().map(Vec::len).sum();
    Ok(reading.value(length, Wrong::LengthInRecords, written.len()))
}

/// "Refusals, nothing written: 5 for a part above 2; by the first faulty line ..; then 21 ..; then 15". The first faulty
/// line has 18 here, whichever its reply is.
fn order(reading: Reading) -> [u8; 4] {
    let orders = [
        (Wrong::PartAfterFaults, [18, 5, 21, 15]),
        (Wrong::PartAfterLimits, [18, 21, 5, 15]),
        (Wrong::PartLast, [18, 21, 15, 5]),
        (Wrong::LimitsBeforeFaults, [5, 21, 18, 15]),
        (Wrong::LimitByLine, [5, 21, 18, 15]),
        (Wrong::RoomBeforeLimits, [5, 18, 15, 21]),
        (Wrong::RoomBeforeFaults, [5, 15, 18, 21]),
    ];
    let wrongly = orders.iter().find(|(wrong, _)| reading.is(*wrong));
    wrongly.map_or([5, 18, 21, 15], |(_, order)| *order)
}

impl Import<'_> {
    pub fn of(call: &Call, reading: Reading) -> Import<'_> {
        let mut text = Text::read(&call.book, reading);
        wrong::leave_text(&mut text, &call.book, reading);
        let part = part(&text.said, reading);
        Import { call, text, part, reading }
    }

    /// "Place is 0 for 5 and 21."
    fn refusal(&self, reply: u8) -> Option<Refusal> {
        let (number, reading) = (self.number(), self.reading);
        let place = match reply {
            18 => return self.text.fault(reading),
            5 => (number > wrong::highest_part(reading)).then(|| reading.value(0, Wrong::FivePlace, number as usize)),
            21 => self.is_past_limits().then(|| self.place_of_limit().unwrap_or(0)),
            _ => self.place_without_room(),
        };
        place.map(|place| Refusal { reply, place })
    }

    /// "then 15 with the bytes needed"
    fn place_without_room(&self) -> Option<usize> {
        let needed = self.needed();
        let enough = self.enough_instead().unwrap_or(needed);
        (enough > self.call.lengths.out).then(|| self.place_of_room().unwrap_or(needed))
    }

    /// The number of the part.
    pub fn number(&self) -> u8 {
        self.reading.value(self.call.part(), Wrong::PartAndFirstSwapped, self.call.first())
    }

    /// The number of the first state.
    pub fn first(&self) -> usize {
        let first = self.reading.value(self.call.first(), Wrong::PartAndFirstSwapped, self.call.part());
        usize::from(first)
    }

    /// "more than 512 arcs or a state number above 63"
    fn is_past_limits(&self) -> bool {
        let (arcs, states) = (self.part.arcs.len(), self.first() + self.part.flags.len());
        let truly = arcs > MOST_ARCS || states > MOST_STATES;
        self.is_past_limits_instead().unwrap_or(truly)
    }

    pub fn needed(&self) -> usize {
        self.written().iter().map(Vec::len).sum()
    }

    /// The records that are written.
    pub fn written(&self) -> Vec<Vec<u8>> {
        self.written_instead().unwrap_or_else(|| records(&self.part, self.number(), self.first()))
    }
}

/// The part that a text draws: its states "by first appearance", its arcs "in text order".
pub fn part(said: &[Said], reading: Reading) -> Part {
    if said.is_empty() {
        // "An empty text gives one state with flags 0."
        return Part { flags: wrong::flags_of_empty(reading).unwrap_or(vec![NEITHER]), arcs: Vec::new() };
    }
    let mut part = Part::default();
    let mut numbers = HashMap::new();
    for state in wrong::named_instead(said, reading).unwrap_or_else(|| named(said)) {
        numbers.entry(state).or_insert_with(|| {
            part.flags.push(NEITHER);
            part.flags.len() - 1
        });
    }
    // Only a wrong reading leaves a state without a number.
    let number = |state: &u64| numbers.get(state).copied();
    // "The first line's first state is the start."
    let start = wrong::start_instead(said, reading).unwrap_or(said[0].states().first().copied());
    start.iter().filter_map(number).for_each(|start| part.flags[start] |= START);
    for state in wrong::finals_instead(said, reading).unwrap_or_else(|| finals(said)) {
        if let Some(state) = number(&state) {
            part.flags[state] |= ACCEPT;
        }
    }
    for said in said {
        if let Said::Arc { source, destination, label } = said {
            // "label k means symbol k - 1"; only a wrong reading comes to a label 0.
            let symbol = label.saturating_sub(1) as u8;
            let (lowest, highest) = wrong::symbols_instead(*label, reading).unwrap_or((symbol, symbol));
            part.arcs.push(Arc { from: numbers[source], lowest, highest, to: numbers[destination] });
        }
    }
    wrong::leave_part(&mut part, said, reading);
    part
}

/// Every state, as often as it is named.
pub fn named(said: &[Said]) -> Vec<u64> {
    said.iter().flat_map(|said| said.states()).collect()
}

/// The final states, as often as they are named.
pub fn finals(said: &[Said]) -> Vec<u64> {
    said.iter().filter(|said| said.label().is_none()).flat_map(|said| said.states()).collect()
}

/// "States are written first, then arcs in text order", "states numbered from a given first number".
pub fn records(part: &Part, number: u8, first: usize) -> Vec<Vec<u8>> {
    let states = part.flags.iter().map(|flags| record::state(number, *flags));
    states.chain(arcs(part, first)).collect()
}

/// The arc records.
pub fn arcs(part: &Part, first: usize) -> impl Iterator<Item = Vec<u8>> + '_ {
    let named = move |state: usize| (first + state) as u8;
    part.arcs.iter().map(move |arc| record::arc(named(arc.from), arc.lowest, arc.highest, named(arc.to)))
}
