//! HEAT: document 02, No. 2, "All lanes of a heat". What one lane gets is in `lane`.

use crate::admission::admit;
use crate::agreement::Agreement;
use crate::answer::{LaneRecord, Lent};
use crate::book::{self, Refusal};
use crate::call::Call;
use crate::lane::{Turn, Used};
use crate::reading::{Reading, Wrong};
use crate::rewrite::Rewritten;
use crate::sides::Sides;
use crate::workspace;

/// "One book and up to ten tapes"
pub const MOST_LANES: usize = 10;

/// Reply and place of the whole call; the lane records are lent like the buffers.
pub fn heat(call: &Call, lent: &mut Lent, agreement: &Agreement) -> Result<(), Refusal> {
    let untouched = lent.clone();
    let result = heat_in_order(call, lent, agreement);
    match result {
        Ok(()) => left_by_acceptance(untouched, lent, agreement.reading),
        Err(refusal) => {
            left_by_refusal(refusal, lent, agreement.reading);
            result
        }
    }
}

/// "Refusals: 16 for more than ten lanes, first, nothing written; then 1 to 8, 11, 13, 14 for the whole call, lane
/// records unchanged, also for an empty list; then per lane .."
fn heat_in_order(call: &Call, lent: &mut Lent, agreement: &Agreement) -> Result<(), Refusal> {
    let reading = agreement.reading;
    if reading.is(Wrong::EmptyListAccepted) && call.lanes.is_empty() {
        return Ok(());
    }
    few_lanes(call, None, reading)?;
    let book = book::read(&call.book, reading)?;
    few_lanes(call, Some(Wrong::LanesAfterBook), reading)?;
    let sides = Sides::of(&book, agreement);
    let reading = sides.reading;
    let built = build(call, &sides, lent, reading);
    if !reading.is(Wrong::BuildRefusesLanes) {
        built?;
    }
    few_lanes(call, Some(Wrong::LanesAfterBuild), reading)?;
    go_through(call, &sides, lent);
    // "the call then replies 0"
    Ok(())
}

/// "the workspace as BUILD leaves it, even if no lane is accepted"
fn build(call: &Call, sides: &Sides, lent: &mut Lent, reading: Reading) -> Result<(), Refusal> {
    admit(call, sides, lent, reading)?;
    let (left, right) = sides.both();
    workspace::write(lent, left, right, reading);
    Ok(())
}

/// "16 for more than ten lanes, first"; wrong readings test it later.
fn few_lanes(call: &Call, now: Option<Wrong>, reading: Reading) -> Result<(), Refusal> {
    let later = [Wrong::LanesAfterBook, Wrong::LanesAfterBuild].into_iter().find(|wrong| reading.is(*wrong));
    let most = reading.value(MOST_LANES, Wrong::ElevenLanes, MOST_LANES + 1);
    let most = reading.value(most, Wrong::NineLanes, MOST_LANES - 1);
    if now != later || call.lanes.len() <= most {
        return Ok(());
    }
    // "Place is 0 for 16 and 17."
    Err(Refusal { reply: 16, place: reading.value(0, Wrong::SixteenPlace, call.lanes.len()) })
}

/// The lanes "one after another, each with the room still left; scratch ends likewise".
fn go_through(call: &Call, sides: &Sides, lent: &mut Lent) {
    let reading = sides.reading;
    let mut used = Used::default();
    for (turns, at) in order(call, reading).into_iter().enumerate() {
        let scratch = lent.scratch.clone();
        if reading.is(Wrong::LastScratchAlone) {
            lent.scratch.fill(call.fill);
        }
        let turn = Turn { call, at, used, sides };
        let result = turn.result(lent);
        write_record(&mut lent.lanes[at], result, used, reading);
        used = turn.used_after(result);
        if reading.is(Wrong::FirstScratchKept) && turns > 0 {
            lent.scratch = scratch;
        }
        if reading.is(Wrong::RefusalEndsHeat) && result.is_err() {
            return;
        }
    }
}

fn order(call: &Call, reading: Reading) -> Vec<usize> {
    let mut order: Vec<usize> = (0..call.lanes.len()).collect();
    if reading.is(Wrong::LanesByStart) {
        order.sort_by_key(|at| call.lanes[*at].start);
    }
    order
}

/// "Each record gets back output length, stretches taken, reply and place."
fn write_record(record: &mut LaneRecord, result: Result<Rewritten, Refusal>, used: Used, reading: Reading) {
    let was = *record;
    (record.out, record.taken, record.reply, record.place) = match result {
        Ok(Rewritten { length, taken }) => (length as u64, taken as u64, 0, 0),
        // "its output length and stretches 0"
        Err(Refusal { reply, place }) => (0, 0, reply, place as u64),
    };
    if reading.is(Wrong::RefusedLaneKeepsCounts) && result.is_err() {
        (record.out, record.taken) = (was.out, was.taken);
    }
    if result.is_ok() {
        record.place = reading.value(record.place, Wrong::AcceptedLaneKeepsPlace, was.place);
        record.out += reading.value(0, Wrong::LaneLengthTotal, used.out as u64);
        record.start = reading.value(record.start, Wrong::StartOfOutput, used.out as u64);
    }
}

/// For wrong readings of what an accepted heat leaves and replies.
fn left_by_acceptance(untouched: Lent, lent: &mut Lent, reading: Reading) -> Result<(), Refusal> {
    let empty = lent.lanes.is_empty();
    let no_lane = !empty && lent.lanes.iter().all(|lane| lane.reply != 0);
    if reading.is(Wrong::EmptyListUnbuilt) && empty || reading.is(Wrong::NoLaneKeeps) && no_lane {
        (lent.rows, lent.sets) = (untouched.rows, untouched.sets);
    } else if reading.is(Wrong::NoLaneClears) && no_lane {
        workspace::clear(lent, reading);
    }
    match lent.lanes.iter().find(|lane| lane.reply != 0) {
        Some(lane) if reading.is(Wrong::CallRepliesForLane) => {
            Err(Refusal { reply: lane.reply, place: lane.place as usize })
        }
        _ => Ok(()),
    }
}

/// For wrong readings of "lane records unchanged" and of 16, "nothing written".
fn left_by_refusal(refusal: Refusal, lent: &mut Lent, reading: Reading) {
    let put = match refusal.reply {
        16 if reading.is(Wrong::SixteenInRecords) => Err(refusal),
        1..=14 if reading.is(Wrong::RecordsRefused) => Err(refusal),
        1..=14 if reading.is(Wrong::RecordsCleared) => Ok(Rewritten { length: 0, taken: 0 }),
        _ => return,
    };
    lent.lanes.iter_mut().for_each(|record| write_record(record, put, Used::default(), reading));
}
