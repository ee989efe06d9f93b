//! Wrong readings of a lane of a heat. Without one, each of these gives what `lane` says.

use std::ops::Range;

use crate::admission::{place_of, LONGEST_TAPE};
use crate::agreement::PLAIN_TAPE;
use crate::answer::Lent;
use crate::book::{Refusal, HIGHEST_SYMBOL};
use crate::call::Lane;
use crate::candidates::{Candidates, Stretch};
use crate::lane::{stretch, Turn};
use crate::output::output;
use crate::reading::{Reading, Wrong};
use crate::rewrite::Rewritten;
use crate::stretches::Stretches;
use crate::taken::taken;
use crate::workspace;

/// Those that are wrong readings of the lane's REWRITE.
const OF_REWRITE: [(Wrong, Wrong); 8] = [
    (Wrong::LaneSymbolBeforeLength, Wrong::SymbolBeforeLength),
    (Wrong::LaneRoomKeepsScratch, Wrong::RoomKeepsScratch),
    (Wrong::LaneRoomOfOut, Wrong::OriginsUntested),
    (Wrong::LaneRoomOfOrigins, Wrong::OutUntested),
    (Wrong::LanesAtStart, Wrong::AllAtStart),
    (Wrong::LanesInsertNothing, Wrong::NothingInserted),
    (Wrong::LaneEndNotRewritten, Wrong::EndNotRewritten),
    (Wrong::LaneFromSixteen, Wrong::TapeFromSixteen),
];

/// Those by which a reply is given for the whole common buffer.
const OF_BUFFER: [(Wrong, u8); 3] =
    [(Wrong::LengthOfBuffer, 9), (Wrong::SymbolsOfBuffer, 10), (Wrong::ScratchOfBuffer, 12)];

/// Those by which a lane with this reply has written its scratch.
const WRITTEN: [(Wrong, u8); 3] =
    [(Wrong::LongLaneWrites, 9), (Wrong::BadLaneWrites, 10), (Wrong::ShortScratchWrites, 12)];

impl Turn<'_> {
    /// The lane's stretch of the common buffer.
    pub fn stretch_read(&self) -> Option<Range<usize>> {
        let (lane, buffer, reading) = (self.lane(), self.call.tape.len(), self.reading());
        let (sum, wraps) = lane.start.overflowing_add(lane.length);
        let is_empty = lane.length == 0;
        let low = |number: u64| u64::from(number as u32);
        if reading.is(Wrong::LaneSumWraps) && wraps && sum <= buffer as u64
            || reading.is(Wrong::EmptyLaneAnywhere) && is_empty
        {
            return Some(0..0);
        }
        if reading.is(Wrong::LaneOf32Bits) {
            return stretch(Lane { start: low(lane.start), length: low(lane.length) }, buffer);
        }
        if reading.is(Wrong::LaneCut) && lane.start <= buffer as u64 {
            let start = lane.start as usize;
            return Some(start..start.saturating_add(lane.length as usize).min(buffer));
        }
        let at_end = is_empty && lane.start == buffer as u64;
        if reading.is(Wrong::EmptyLaneAtEnd) && at_end || reading.is(Wrong::OverlapRefused) && self.overlaps() {
            return None;
        }
        stretch(lane, buffer)
    }

    /// Whether the lane has a symbol in common with one before it.
    fn overlaps(&self) -> bool {
        let stretch = |lane: &Lane| stretch(*lane, self.call.tape.len()).unwrap_or(0..0);
        let own = stretch(&self.lane());
        let mut before = self.call.lanes[..self.at].iter().map(stretch);
        before.any(|before| own.start.max(before.start) < own.end.min(before.end))
    }

    /// What a lane gets that would be refused with this: another reply, another place, or none.
    pub fn instead(&self, refusal: Refusal) -> Result<Rewritten, Refusal> {
        let Refusal { reply, place } = refusal;
        let (Lane { start, length }, given) = (self.lane(), self.call.lengths);
        let is = |wrong: Wrong| self.reading().is(wrong);
        let refused = |reply: u8, place: usize| Err(Refusal { reply, place });
        let room = (given.out - self.used.out).min(given.origins - self.used.origins);
        match reply {
            17 if is(Wrong::LengthBeforeStretch) && length > LONGEST_TAPE as u64 => refused(9, 0),
            17 if is(Wrong::SeventeenPlace) => refused(17, start as usize),
            10 if is(Wrong::LaneScratchBeforeSymbol) && given.scratch as u64 <= length => refused(12, 0),
            10 if is(Wrong::LanePlaceInBuffer) => refused(10, start as usize + place),
            12 if is(Wrong::LaneRoomBeforeScratch) && self.needed() > room => refused(15, self.needed()),
            12 if is(Wrong::EmptyLaneNeedsNone) && length == 0 => Ok(Rewritten { length: 0, taken: 0 }),
            15 if is(Wrong::LanePlaceTotal) => refused(15, self.used.out + place),
            _ => Err(refusal),
        }
    }

    pub fn reading_of_rewrite(&self) -> Reading {
        if self.reading().is(Wrong::BetweenLanesOnce) && self.goes_on() {
            return Reading::with(Wrong::FrontNotRewritten);
        }
        let of_rewrite = OF_REWRITE.iter().find(|(wrong, _)| self.reading().is(*wrong));
        of_rewrite.map_or(self.reading(), |(_, wrong)| Reading::with(*wrong))
    }

    /// Whether the lane starts where the one before it ends.
    fn goes_on(&self) -> bool {
        let before = self.at.checked_sub(1).and_then(|at| stretch(self.call.lanes[at], self.call.tape.len()));
        before.is_some_and(|before| before.end as u64 == self.lane().start)
    }

    /// The common buffer in the place of the lane's tape.
    pub fn test_buffer(&self) -> Result<(), Refusal> {
        let tested = OF_BUFFER.iter().find(|(wrong, _)| self.reading().is(*wrong));
        let refused = tested.and_then(|(_, reply)| {
            let place = place_of(*reply, self.call, self.sides, self.reading())?;
            Some(Refusal { reply: *reply, place })
        });
        refused.map_or(Ok(()), Err)
    }

    /// The stretches of the lane's tape, whose contexts may be looked for beyond it.
    pub fn stretches(&self, stretch: Range<usize>) -> Stretches {
        let from = self.reading().value(stretch.start, Wrong::LeftFromBefore, 0);
        let to = self.reading().value(stretch.end, Wrong::RightFromAfter, self.call.tape.len());
        let wider = &self.call.tape[from..to];
        if wider.len() == stretch.len() || wider.len() > PLAIN_TAPE {
            return self.sides.agreement.stretches(self.sides.book, &self.call.tape[stretch]);
        }
        let candidates = Candidates { book: self.sides.book, tape: wider, reading: self.reading() };
        let (first, last) = (stretch.start - from, stretch.end - from);
        let inside = |stretch: &Stretch| first <= stretch.start && stretch.end <= last;
        let moved = |Stretch { rule, start, end }| Stretch { rule, start: start - first, end: end - first };
        let listed: Vec<Stretch> = candidates.all().into_iter().filter(inside).map(moved).collect();
        Stretches { count: listed.len(), taken: taken(&candidates, &listed), listed }
    }

    /// Scratch and origins after the lane, while it is lent the rest.
    pub fn write_wrongly(&self, stretch: Range<usize>, result: Result<Rewritten, Refusal>, lent: &mut Lent) {
        let reading = self.reading();
        let reply = result.map_or_else(|refusal| refusal.reply, |_| 0);
        if WRITTEN.iter().any(|(wrong, written)| reading.is(*wrong) && reply == *written) {
            self.write_scratch(stretch.clone(), stretch.end, lent);
        }
        if reading.is(Wrong::ScratchFromBuffer) && matches!(reply, 0 | 15) {
            self.write_scratch(stretch.clone(), self.call.tape.len(), lent);
        }
        let before = lent.lanes[..self.at].iter().filter(|lane| lane.reply == 0).map(|lane| lane.length as u16);
        let shift = reading.value(0, Wrong::OriginsInBuffer, stretch.start as u16);
        let shift = reading.value(shift, Wrong::OriginsGoOn, before.fold(0, u16::wrapping_add));
        let written = result.map_or(0, |rewritten| rewritten.length);
        lent.origins.iter_mut().take(written).for_each(|origin| *origin = origin.wrapping_add(shift));
    }

    /// The numbers of the right sets over the lane's stretch, with the tape read up to `end`.
    fn write_scratch(&self, stretch: Range<usize>, end: usize, lent: &mut Lent) {
        let tape = &self.call.tape[stretch.start..end];
        // The fast reading takes no bad symbol.
        if tape.len() > PLAIN_TAPE && tape.iter().any(|symbol| *symbol > HIGHEST_SYMBOL) {
            return;
        }
        let sets = self.sides.agreement.right_sets(self.sides.book, tape);
        let (_, right) = self.sides.both();
        let numbers = sets.iter().take(stretch.len() + 1).map(|set| right.number(*set)).collect();
        workspace::write_scratch(lent, numbers, self.reading());
    }

    /// The room that a refused lane uses: truly none.
    pub fn used_by_refused(&self, refusal: Refusal) -> usize {
        let is = |wrong: Wrong| self.reading().is(wrong);
        match refusal.reply {
            15 if is(Wrong::RefusedLaneUsesNeeded) => refusal.place,
            12 if is(Wrong::ShortScratchUsesNeeded) => self.needed(),
            _ if is(Wrong::RefusedLaneUsesTape) => self.lane().length.min(self.call.tape.len() as u64) as usize,
            _ => 0,
        }
    }

    /// The symbols that the lane would need.
    fn needed(&self) -> usize {
        let stretch = self.stretch_read().expect("a lane inside the buffer");
        let stretches = self.stretches(stretch.clone());
        output(self.sides.book, &self.call.tape[stretch], &stretches.taken, self.reading()).symbols.len()
    }

    /// The scratch that the next lane is not lent: truly none.
    pub fn scratch_used(&self, result: Result<Rewritten, Refusal>) -> usize {
        match self.reading().is(Wrong::ScratchGoesOn) && result.is_ok() {
            false => self.used.scratch,
            true => (self.used.scratch + self.lane().length as usize + 1).min(self.call.lengths.scratch),
        }
    }
}
