//! Heats: tapes in one common buffer, and a lane for each.

use crate::answer::{Lane, Rewritten, LANES};
use crate::lent::OLD;

/// A heat of which every lane is taken.
pub struct Heat {
    pub tapes: Vec<u8>,
    pub lanes: [Lane; LANES],
}

impl Heat {
    /// The lanes as a call leaves them, and its answer.
    pub fn run<T>(&self, call: impl FnOnce(&[u8], &mut [Lane]) -> T) -> (T, [Lane; LANES]) {
        let mut lanes = self.lanes;
        (call(&self.tapes, &mut lanes), lanes)
    }
}

/// A lane as it stands before a call.
pub fn lane(start: usize, length: usize) -> Lane {
    let old = OLD as usize;
    Lane { start, length, out: old, taken: old, reply: OLD, place: old }
}

/// Heats of the tapes cut into pieces of that length: each piece is in a lane, and the first ones once more until the last heat is full.
pub fn of_pieces(tapes: &[Vec<u8>], length: usize) -> Vec<Heat> {
    let pieces: Vec<&[u8]> = tapes.iter().flat_map(|tape| tape.chunks_exact(length)).collect();
    let heat = |first| Heat {
        tapes: (first..first + LANES).flat_map(|k| pieces[k % pieces.len()]).copied().collect(),
        lanes: std::array::from_fn(|k| lane(k * length, length)),
    };
    (0..pieces.len()).step_by(LANES).map(heat).collect()
}

/// The lanes one after another. `rewrite` is given a lane's tape and how much of the outputs the lanes before have used; 17 where the
/// stretch leaves the common buffer.
pub fn in_turn(tapes: &[u8], lanes: &mut [Lane], mut rewrite: impl FnMut(&[u8], usize) -> Rewritten) {
    let mut used = 0;
    for lane in lanes {
        let end = lane.start.checked_add(lane.length);
        let Rewritten { reply, place, length, taken } = match end.and_then(|end| tapes.get(lane.start..end)) {
            Some(tape) => rewrite(tape, used),
            None => Rewritten { reply: 17, place: 0, length: 0, taken: 0 },
        };
        *lane = Lane { out: length, taken, reply, place, ..*lane };
        used += length;
    }
}
