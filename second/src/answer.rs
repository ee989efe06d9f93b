//! One answer of an operation, with every lent buffer as it stands after the call.

use std::fmt::Debug;
use std::io::{self, Read};

use crate::account::{Line, WORDS_A_LINE};
use crate::call::{read_bytes, read_longs, read_words, Call, Lane, Operation};

/// Document 02, No. 2: "lane records, each with the start and length of its tape in one common buffer. Each record gets
/// back output length, stretches taken, reply and place."
#[derive(Clone, Copy, PartialEq, Eq, Debug)]
pub struct LaneRecord {
    pub start: u64,
    pub length: u64,
    pub out: u64,
    pub taken: u64,
    pub reply: u8,
    pub place: u64,
}

impl LaneRecord {
    fn before(lane: &Lane, fill: u8) -> LaneRecord {
        let long = u64::from_le_bytes([fill; 8]);
        LaneRecord { start: lane.start, length: lane.length, out: long, taken: long, reply: fill, place: long }
    }

    fn to_bytes(self) -> Vec<u8> {
        let numbers = [self.start, self.length, self.out, self.taken];
        let mut bytes: Vec<u8> = numbers.into_iter().flat_map(u64::to_le_bytes).collect();
        bytes.push(self.reply);
        bytes.extend(self.place.to_le_bytes());
        bytes
    }

    fn read(input: &mut impl Read) -> io::Result<LaneRecord> {
        let numbers = read_longs(input, 4)?;
        let reply = read_bytes(input, 1)?[0];
        let place = read_longs(input, 1)?[0];
        let [start, length, out, taken] = [numbers[0], numbers[1], numbers[2], numbers[3]];
        Ok(LaneRecord { start, length, out, taken, reply, place })
    }
}

/// The buffers that an operation can be lent for writing. One that it is not lent is empty.
#[derive(Clone, PartialEq, Eq, Debug, Default)]
pub struct Lent {
    pub rows: Vec<u8>,
    pub sets: Vec<u64>,
    pub scratch: Vec<u8>,
    pub out: Vec<u8>,
    pub origins: Vec<u16>,
    pub lines: Vec<u16>,
    pub lanes: Vec<LaneRecord>,
}

impl Lent {
    /// The buffers as the operation finds them: the call's fill in every byte.
    pub fn before(call: &Call) -> Lent {
        let (word, long) = (u16::from_le_bytes([call.fill; 2]), u64::from_le_bytes([call.fill; 8]));
        let lengths = call.lent_lengths();
        Lent {
            rows: vec![call.fill; lengths.rows],
            sets: vec![long; lengths.sets],
            scratch: vec![call.fill; lengths.scratch],
            out: vec![call.fill; lengths.out],
            origins: vec![word; lengths.origins],
            lines: vec![word; lengths.lines],
            lanes: call.lanes.iter().map(|lane| LaneRecord::before(lane, call.fill)).collect(),
        }
    }
}

#[derive(Clone, PartialEq, Eq, Debug)]
pub struct Answer {
    pub operation: Operation,
    pub reply: u8,
    pub place: u64,
    /// What the operation counts, in the order in which it answers; 0 where it has no more to count.
    pub counts: [u64; 4],
    /// SHOW alone: the part handed back.
    pub part: Vec<u8>,
    pub lent: Lent,
}

impl Answer {
    pub fn to_bytes(&self) -> Vec<u8> {
        let mut bytes = vec![self.operation as u8, self.reply];
        bytes.extend(self.place.to_le_bytes());
        bytes.extend(self.counts.iter().flat_map(|count| count.to_le_bytes()));
        bytes.extend(&self.part);
        bytes.extend(&self.lent.rows);
        bytes.extend(self.lent.sets.iter().flat_map(|set| set.to_le_bytes()));
        bytes.extend(&self.lent.scratch);
        bytes.extend(&self.lent.out);
        bytes.extend(self.lent.origins.iter().flat_map(|word| word.to_le_bytes()));
        bytes.extend(self.lent.lines.iter().flat_map(|word| word.to_le_bytes()));
        bytes.extend(self.lent.lanes.iter().flat_map(|lane| lane.to_bytes()));
        bytes
    }

    /// Reads the answer to a call; how long it is follows from the call, and for SHOW from its first count.
    pub fn read(call: &Call, input: &mut impl Read) -> io::Result<Answer> {
        let head = read_bytes(input, 2)?;
        let numbers = read_longs(input, 1 + 4)?;
        let operation = Operation::numbered(head[0]).ok_or_else(|| io::Error::other("an answer of no operation"))?;
        let counts = [numbers[1], numbers[2], numbers[3], numbers[4]];
        let shown = if call.operation == Operation::Show { counts[0] as usize } else { 0 };
        if shown > call.tape.len() {
            return Err(io::Error::other(format!("a part of {shown} symbols from a tape of {}", call.tape.len())));
        }
        let part = read_bytes(input, shown)?;
        let lent = read_lent(&Lent::before(call), input)?;
        Ok(Answer { operation, reply: head[1], place: numbers[0], counts, part, lent })
    }

    /// REWRITE alone: the output symbols written.
    pub fn symbols(&self) -> &[u8] {
        front(&self.lent.out, self.counts[0])
    }

    /// REWRITE alone: their origins.
    pub fn origins(&self) -> &[u16] {
        front(&self.lent.origins, self.counts[0])
    }

    /// ACCOUNT alone: the lines written.
    pub fn account(&self) -> Vec<Line> {
        let lines = self.lent.lines.chunks_exact(WORDS_A_LINE).map(|line| line.try_into().expect("six words"));
        lines.take(self.counts[0] as usize).collect()
    }

    /// The first difference in words, or nothing.
    pub fn difference(&self, other: &Answer) -> Option<String> {
        let numbers = |answer: &Answer| {
            [&[answer.operation as u64, u64::from(answer.reply), answer.place], &answer.counts[..]].concat()
        };
        let (mine, theirs) = (numbers(self), numbers(other));
        let names = ["operation", "reply", "place", "count 0", "count 1", "count 2", "count 3"];
        let number = (0..names.len()).find(|at| mine[*at] != theirs[*at]);
        let number = number.map(|at| format!("{}: expected {}, got {}", names[at], mine[at], theirs[at]));
        number
            .or_else(|| first_element("part", &self.part, &other.part))
            .or_else(|| first_element("rows", &self.lent.rows, &other.lent.rows))
            .or_else(|| first_element("sets", &self.lent.sets, &other.lent.sets))
            .or_else(|| first_element("scratch", &self.lent.scratch, &other.lent.scratch))
            .or_else(|| first_element("out", &self.lent.out, &other.lent.out))
            .or_else(|| first_element("origins", &self.lent.origins, &other.lent.origins))
            .or_else(|| first_element("lines", &self.lent.lines, &other.lent.lines))
            .or_else(|| first_element("lanes", &self.lent.lanes, &other.lent.lanes))
    }
}

/// So many elements; all of them if a wrong answer counts more.
fn front<T>(buffer: &[T], count: u64) -> &[T] {
    &buffer[..buffer.len().min(count as usize)]
}

fn first_element<T: PartialEq + Debug>(buffer: &str, mine: &[T], theirs: &[T]) -> Option<String> {
    // Both have the length that the call or the count before them says.
    let at = mine.iter().zip(theirs).position(|(mine, theirs)| mine != theirs)?;
    Some(format!("{buffer}[{at}]: expected {:?}, got {:?}", mine[at], theirs[at]))
}

/// Reads as many elements of each buffer as were lent.
fn read_lent(before: &Lent, input: &mut impl Read) -> io::Result<Lent> {
    Ok(Lent {
        rows: read_bytes(input, before.rows.len())?,
        sets: read_longs(input, before.sets.len())?,
        scratch: read_bytes(input, before.scratch.len())?,
        out: read_bytes(input, before.out.len())?,
        origins: read_words(input, before.origins.len())?,
        lines: read_words(input, before.lines.len())?,
        lanes: before.lanes.iter().map(|_| LaneRecord::read(input)).collect::<io::Result<_>>()?,
    })
}
