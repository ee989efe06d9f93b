//! Wrong readings of the origins of a replacement, an inserted word among them. The true one is in `output`.

use crate::candidates::Stretch;
use crate::output::Mark;
use crate::reading::{Reading, Wrong};

impl Mark<'_> {
    /// The origin by the wrong reading that is put in, if that is one of those below.
    pub fn wrong_origin(&self, reading: Reading) -> Option<usize> {
        let inserted = self.inserted_elsewhere().into_iter().filter(|_| self.stretch.is_empty());
        let mut instead = self.wrongly_at_last().into_iter().chain(self.elsewhere()).chain(inserted);
        instead.find(|(wrong, _)| reading.is(*wrong)).map(|(_, origin)| origin)
    }

    /// The last position of the stretch; of an empty one its own position.
    fn last(&self) -> usize {
        self.stretch.end.saturating_sub(1).max(self.stretch.start)
    }

    /// The last position for other symbols than truly, the start for all the rest.
    fn wrongly_at_last(&self) -> [(Wrong, usize); 12] {
        let Stretch { start, end, .. } = self.stretch;
        let (length, replaced) = (self.word.len(), end - start);
        let (is_first, is_last, closes) = (self.place == 0, self.is_last(), self.closes());
        let stands_there = self.tape.get(self.last()) == Some(&self.word[self.place]);
        let at_last = |holds: bool| if holds { self.last() } else { start };
        [
            (Wrong::AllAtStart, start),
            (Wrong::OneAtLast, at_last(is_last)),
            (Wrong::AllAtLast, at_last(length >= 2)),
            (Wrong::FirstAtLast, at_last(is_first && length >= 2)),
            (Wrong::SecondAtLast, at_last(self.place == 1)),
            (Wrong::AllButFirstAtLast, at_last(!is_first)),
            (Wrong::AllButLastAtLast, at_last(!is_last)),
            (Wrong::TwoAtLast, at_last(is_last && length == 2)),
            (Wrong::ThreeAtLast, at_last(is_last && length >= 3)),
            (Wrong::AsLongAtLast, at_last(closes && length == replaced)),
            (Wrong::NoLongerAtLast, at_last(closes && length <= replaced)),
            (Wrong::SameAtLast, at_last(closes && stands_there)),
        ]
    }

    /// Other positions than the last and the start.
    fn elsewhere(&self) -> [(Wrong, usize); 8] {
        let Stretch { start, end, .. } = self.stretch;
        let (last, counted, closes) = (self.last(), start + self.place, self.closes());
        let of_last = |origin: usize| if closes { origin } else { start };
        [
            (Wrong::OriginsCountUp, counted),
            (Wrong::OriginOfEnd, end),
            (Wrong::LastAtEnd, of_last(end)),
            (Wrong::LastBeforeLast, of_last(last.saturating_sub(1))),
            (Wrong::LastByWord, of_last(counted)),
            (Wrong::LastInOutput, of_last(self.written)),
            (Wrong::CountUpToLast, counted.min(last)),
            (Wrong::CountUpBeforeLast, if closes { last } else { counted }),
        ]
    }

    /// Other positions than its own for an inserted word.
    fn inserted_elsewhere(&self) -> [(Wrong, usize); 6] {
        let place = self.stretch.start;
        let (before, after, at_end) = (place.saturating_sub(1), place + 1, place == self.tape.len());
        [
            (Wrong::InsertedEarly, before),
            (Wrong::InsertedLate, after),
            (Wrong::InsertedLastEarly, if self.closes() { before } else { place }),
            (Wrong::InsertedLastLate, if self.closes() { after } else { place }),
            (Wrong::EndAtLastPosition, if at_end { before } else { place }),
            (Wrong::InsertedInOutput, self.written),
        ]
    }
}
