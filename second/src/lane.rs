//! One lane of a heat: document 02, No. 2, "The result, origins too, is what the lanes alone would give, one after
//! another, each with the room still left". What wrong readings make of it is in `wrong_lane`.

use std::ops::Range;

use crate::admission::admit;
use crate::answer::Lent;
use crate::book::Refusal;
use crate::call::{Call, Lane, Lengths, Operation};
use crate::reading::{Reading, Wrong};
use crate::rewrite::{rewrite, Rewritten};
use crate::sides::Sides;

/// How much of each buffer the lanes so far have used.
#[derive(Clone, Copy, Default)]
pub struct Used {
    pub out: usize,
    pub origins: usize,
    /// 0 but for a wrong reading: each lane is lent the whole scratch.
    pub scratch: usize,
}

/// A lane's turn in a heat whose book is built.
pub struct Turn<'a> {
    pub call: &'a Call,
    pub at: usize,
    pub used: Used,
    pub sides: &'a Sides<'a>,
}

/// "the start and length of its tape in one common buffer"; nothing if it leaves the buffer. The sum of two 64-bit
/// numbers cannot wrap around here.
pub fn stretch(lane: Lane, buffer: usize) -> Option<Range<usize>> {
    let end = u128::from(lane.start) + u128::from(lane.length);
    (end <= buffer as u128).then_some(lane.start as usize..end as usize)
}

impl Turn<'_> {
    pub fn lane(&self) -> Lane {
        self.call.lanes[self.at]
    }

    pub fn reading(&self) -> Reading {
        self.sides.reading
    }

    /// What the lane gets: 17, or what REWRITE gives for its tape alone.
    pub fn result(&self, lent: &mut Lent) -> Result<Rewritten, Refusal> {
        // "17 (its stretch leaves the common buffer)"
        let stretch = self.stretch_read().ok_or(Refusal { reply: 17, place: 0 });
        let result = stretch.and_then(|stretch| self.with_rest_lent(stretch, lent));
        result.or_else(|refusal| self.instead(refusal))
    }

    /// The lane is lent what is left; what stands in front of that is put back afterwards.
    fn with_rest_lent(&self, stretch: Range<usize>, lent: &mut Lent) -> Result<Rewritten, Refusal> {
        let out: Vec<u8> = lent.out.drain(..self.used.out).collect();
        let origins: Vec<u16> = lent.origins.drain(..self.used.origins).collect();
        let scratch: Vec<u8> = lent.scratch.drain(..self.used.scratch).collect();
        let result = self.rewritten(stretch.clone(), lent);
        self.write_wrongly(stretch, result, lent);
        lent.out.splice(0..0, out);
        lent.origins.splice(0..0, origins);
        lent.scratch.splice(0..0, scratch);
        result
    }

    fn rewritten(&self, stretch: Range<usize>, lent: &mut Lent) -> Result<Rewritten, Refusal> {
        let (alone, reading) = (self.alone(stretch.clone()), self.reading_of_rewrite());
        self.test_buffer()?;
        admit(&alone, self.sides, lent, reading)?;
        rewrite(&alone, self.sides, &self.stretches(stretch), lent, reading)
    }

    /// The lane's own call, "with the room still left".
    fn alone(&self, stretch: Range<usize>) -> Call {
        let given = self.call.lengths;
        let lengths = Lengths {
            out: given.out - self.used.out,
            origins: given.origins - self.used.origins,
            scratch: given.scratch - self.used.scratch,
            ..given
        };
        let tape = self.call.tape[stretch].to_vec();
        Call { operation: Operation::Rewrite, tape, lengths, lanes: Vec::new(), ..self.call.clone() }
    }

    /// "Each lane's output goes into the common output right after that of the lane before, and a refused lane uses no
    /// room."
    pub fn used_after(&self, result: Result<Rewritten, Refusal>) -> Used {
        let (reading, given) = (self.reading(), self.call.lengths);
        let length = result.map_or_else(|refusal| self.used_by_refused(refusal), |rewritten| rewritten.length);
        // Only wrong readings use more than there is, or begin at the front again.
        let used = |used: usize, given: usize| (used + length).min(given);
        Used {
            out: reading.value(used(self.used.out, given.out), Wrong::SymbolsAtFront, 0),
            origins: reading.value(used(self.used.origins, given.origins), Wrong::OriginsAtFront, 0),
            scratch: self.scratch_used(result),
        }
    }
}
