//! One call of an operation, as the door's request carries it.

use std::io::{self, Read};

/// The operations, numbered as in a request.
#[derive(Clone, Copy, PartialEq, Eq, Debug)]
pub enum Operation {
    Check = 1,
    Build = 2,
    Rewrite = 3,
    Account = 4,
    Show = 5,
    Heat = 6,
    Import = 7,
}

impl Operation {
    pub const ALL: [Operation; 7] = [
        Operation::Check,
        Operation::Build,
        Operation::Rewrite,
        Operation::Account,
        Operation::Show,
        Operation::Heat,
        Operation::Import,
    ];

    pub fn numbered(number: u8) -> Option<Operation> {
        Operation::ALL.into_iter().find(|operation| *operation as u8 == number)
    }

    pub fn name(self) -> &'static str {
        match self {
            Operation::Check => "CHECK",
            Operation::Build => "BUILD",
            Operation::Rewrite => "REWRITE",
            Operation::Account => "ACCOUNT",
            Operation::Show => "SHOW",
            Operation::Heat => "HEAT",
            Operation::Import => "IMPORT",
        }
    }
}

/// Lengths of the buffers lent, in elements; a buffer that the operation is not lent has length 0.
#[derive(Clone, Copy, PartialEq, Eq, Debug, Default)]
pub struct Lengths {
    pub rows: usize,
    pub sets: usize,
    pub scratch: usize,
    pub out: usize,
    pub origins: usize,
    pub lines: usize,
}

/// Where a lane's tape stands in the common buffer. A record may say any numbers.
#[derive(Clone, Copy, PartialEq, Eq, Debug, Default)]
pub struct Lane {
    pub start: u64,
    pub length: u64,
}

#[derive(Clone, PartialEq, Eq, Debug)]
pub struct Call {
    pub operation: Operation,
    /// The byte that stands everywhere in the lent buffers before the call, and in what a lane record gets back.
    pub fill: u8,
    /// For IMPORT the text.
    pub book: Vec<u8>,
    /// For HEAT the common buffer.
    pub tape: Vec<u8>,
    pub lengths: Lengths,
    /// SHOW alone: the account.
    pub account: Vec<u16>,
    /// For SHOW the number of the line, for IMPORT the part and 256 times the first number.
    pub line: u32,
    /// HEAT alone: what its lane records say.
    pub lanes: Vec<Lane>,
}

/// The longest lengths a request may carry: book, tape, rows, sets, scratch, out, origins, lines.
const LONGEST: [usize; 8] = [65_536, 65_536, 40_000, 1024, 65_536, 65_536, 65_536, 131_072];
pub const LONGEST_BOOK: usize = LONGEST[0];
pub const LONGEST_TAPE: usize = LONGEST[1];
pub const MOST_LINE_WORDS: usize = LONGEST[7];
/// HEAT has lanes in the place of lines.
pub const MOST_LANES_SENT: usize = 12;

/// What reading a request can come to.
pub enum Request {
    Call(Box<Call>),
    /// The input ended where a request would begin.
    Ended,
    /// Another operation, a length beyond the longest, or a request cut short.
    Refused,
}

impl Call {
    pub fn new(operation: Operation) -> Call {
        Call {
            operation,
            fill: 0,
            book: Vec::new(),
            tape: Vec::new(),
            lengths: Lengths::default(),
            account: Vec::new(),
            line: 0,
            lanes: Vec::new(),
        }
    }

    /// IMPORT alone: the part, the low byte of the line.
    pub fn part(&self) -> u8 {
        self.line.to_le_bytes()[0]
    }

    /// IMPORT alone: the first number, the next byte of the line. What stands above it is not looked at.
    pub fn first(&self) -> u8 {
        self.line.to_le_bytes()[1]
    }

    /// The lengths of the buffers that the operation is lent, 0 for the others.
    pub fn lent_lengths(&self) -> Lengths {
        let Lengths { rows, sets, scratch, out, origins, lines } = self.lengths;
        match self.operation {
            Operation::Check | Operation::Show => Lengths::default(),
            Operation::Build => Lengths { rows, sets, ..Lengths::default() },
            Operation::Rewrite | Operation::Heat => Lengths { rows, sets, scratch, out, origins, lines: 0 },
            Operation::Account => Lengths { rows, sets, scratch, lines, ..Lengths::default() },
            Operation::Import => Lengths { out, ..Lengths::default() },
        }
    }

    /// The same with length 0 for every buffer that the operation is not lent.
    pub fn lent_alone(mut self) -> Call {
        self.lengths = self.lent_lengths();
        self
    }

    /// The same with no buffer longer than a request may ask for.
    pub fn within_limits(mut self) -> Call {
        let lengths = &mut self.lengths;
        lengths.rows = lengths.rows.min(LONGEST[2]);
        lengths.sets = lengths.sets.min(LONGEST[3]);
        lengths.scratch = lengths.scratch.min(LONGEST[4]);
        lengths.out = lengths.out.min(LONGEST[5]);
        lengths.origins = lengths.origins.min(LONGEST[6]);
        lengths.lines = lengths.lines.min(LONGEST[7]);
        self
    }

    pub fn to_bytes(&self) -> Vec<u8> {
        let Lengths { rows, sets, scratch, out, origins, lines } = self.lengths;
        let lines = match self.operation {
            Operation::Show => self.account.len(),
            Operation::Heat => self.lanes.len(),
            _ => lines,
        };
        let mut bytes = vec![self.operation as u8, self.fill];
        for length in [self.book.len(), self.tape.len(), rows, sets, scratch, out, origins, lines] {
            bytes.extend((length as u32).to_le_bytes());
        }
        bytes.extend(self.line.to_le_bytes());
        bytes.extend(&self.book);
        bytes.extend(&self.tape);
        bytes.extend(self.account.iter().flat_map(|word| word.to_le_bytes()));
        bytes.extend(self.lanes.iter().flat_map(|lane| [lane.start, lane.length]).flat_map(u64::to_le_bytes));
        bytes
    }

    pub fn read(input: &mut impl Read) -> io::Result<Request> {
        let mut operation = [0];
        if input.read(&mut operation)? == 0 {
            return Ok(Request::Ended);
        }
        match Call::read_body(operation[0], input) {
            Ok(Some(call)) => Ok(Request::Call(Box::new(call))),
            Ok(None) => Ok(Request::Refused),
            Err(error) if error.kind() == io::ErrorKind::UnexpectedEof => Ok(Request::Refused),
            Err(error) => Err(error),
        }
    }

    fn read_body(operation: u8, input: &mut impl Read) -> io::Result<Option<Call>> {
        let Some(operation) = Operation::numbered(operation) else { return Ok(None) };
        let mut call = Call::new(operation);
        call.fill = read_bytes(input, 1)?[0];
        let mut lengths = [0; 8];
        for length in &mut lengths {
            *length = read_number(input)? as usize;
        }
        call.line = read_number(input)?;
        let mut longest = LONGEST;
        if operation == Operation::Heat {
            longest[7] = MOST_LANES_SENT;
        }
        if lengths.iter().zip(longest).any(|(length, longest)| *length > longest) {
            return Ok(None);
        }
        let [book, tape, rows, sets, scratch, out, origins, lines] = lengths;
        call.book = read_bytes(input, book)?;
        call.tape = read_bytes(input, tape)?;
        call.lengths = Lengths { rows, sets, scratch, out, origins, lines };
        match operation {
            Operation::Show => call.account = read_words(input, lines)?,
            Operation::Heat => call.lanes = read_lanes(input, lines)?,
            _ => {}
        }
        Ok(Some(call.lent_alone()))
    }

    /// The call in words, for a reader who wants to work it by hand.
    pub fn in_words(&self) -> String {
        let mut words = format!("{}, old contents {:#04x}\n", self.operation.name(), self.fill);
        if self.operation == Operation::Import {
            return words + &self.import_in_words();
        }
        for piece in crate::record::pieces(&self.book) {
            words += &format!("  book: {}\n", crate::record::in_words(&piece));
        }
        words += &format!("  tape of {}: {}\n", self.tape.len(), crate::digits::shown(&self.tape));
        for (at, Lane { start, length }) in self.lanes.iter().enumerate() {
            words += &format!("  lane {at}: start {start}, length {length}\n");
        }
        if self.operation == Operation::Show {
            words += &format!("  account of {} words: {:?}\n  line {}\n", self.account.len(), self.account, self.line);
        } else {
            words += &format!("  {:?}\n", self.lengths);
        }
        words
    }

    fn import_in_words(&self) -> String {
        let lines = self.book.split_inclusive(|byte| *byte == b'\n');
        let text: String = lines.map(|line| format!("  text: {}\n", line.escape_ascii())).collect();
        text + &format!("  part {}, first number {}, room {}\n", self.part(), self.first(), self.lengths.out)
    }
}

pub fn read_bytes(input: &mut impl Read, length: usize) -> io::Result<Vec<u8>> {
    let mut bytes = vec![0; length];
    input.read_exact(&mut bytes)?;
    Ok(bytes)
}

pub fn read_words(input: &mut impl Read, length: usize) -> io::Result<Vec<u16>> {
    Ok(read_bytes(input, 2 * length)?.chunks(2).map(|word| u16::from_le_bytes([word[0], word[1]])).collect())
}

/// So many 64-bit numbers.
pub fn read_longs(input: &mut impl Read, length: usize) -> io::Result<Vec<u64>> {
    let long = |bytes: &[u8]| bytes.iter().rev().fold(0, |number, byte| number << 8 | u64::from(*byte));
    Ok(read_bytes(input, 8 * length)?.chunks(8).map(long).collect())
}

fn read_lanes(input: &mut impl Read, length: usize) -> io::Result<Vec<Lane>> {
    let lane = |pair: &[u64]| Lane { start: pair[0], length: pair[1] };
    Ok(read_longs(input, 2 * length)?.chunks(2).map(lane).collect())
}

fn read_number(input: &mut impl Read) -> io::Result<u32> {
    let mut bytes = [0; 4];
    input.read_exact(&mut bytes)?;
    Ok(u32::from_le_bytes(bytes))
}
