//! The text that IMPORT reads: document 02, No. 7, "the AT&T text form that OpenFst uses for acceptors". What wrong
//! readings make of it is in `wrong_text`.

use crate::book::{Refusal, SYMBOLS};
use crate::reading::{Reading, Wrong};
use crate::wrong_text::{deciding_instead, labels, lines_instead, number_instead, reply_instead};

/// "a state above 65,535"
pub const HIGHEST_STATE: u64 = 65_535;
/// "a label 0 or above 32"
pub const HIGHEST_LABEL: u64 = SYMBOLS as u64;

/// What a line says: "source, destination, label; or one final state".
#[derive(Clone, Copy, PartialEq, Eq, Debug)]
pub enum Said {
    Arc { source: u64, destination: u64, label: u64 },
    Final(u64),
}

impl Said {
    /// The states that it names, in the order of its fields.
    pub fn states(self) -> Vec<u64> {
        match self {
            Said::Arc { source, destination, .. } => vec![source, destination],
            Said::Final(state) => vec![state],
        }
    }

    pub fn label(self) -> Option<u64> {
        match self {
            Said::Arc { label, .. } => Some(label),
            Said::Final(_) => None,
        }
    }
}

/// What a field of a line names.
#[derive(Clone, Copy, PartialEq, Eq, Debug)]
pub enum Field {
    Source,
    Destination,
    Label,
    Final,
}

/// One line of a text.
#[derive(Clone, Copy)]
pub struct TextLine<'a> {
    /// Where it begins.
    pub offset: usize,
    /// What stands in it, without its newline.
    pub content: &'a [u8],
    /// "Each line ends with a newline"; the last one may lack it.
    pub is_ended: bool,
}

/// The lines of a text; an empty text has none.
pub fn lines(text: &[u8]) -> Vec<TextLine<'_>> {
    let mut offset = 0;
    let mut lines = Vec::new();
    for piece in text.split_inclusive(|byte| *byte == b'\n') {
        let ended = piece.strip_suffix(b"\n");
        lines.push(TextLine { offset, content: ended.unwrap_or(piece), is_ended: ended.is_some() });
        offset += piece.len();
    }
    lines
}

/// A text, read line by line.
pub struct Text {
    /// What its lines say, those at fault left out.
    pub said: Vec<Said>,
    /// A refusal for each line that is at fault.
    pub faults: Vec<Refusal>,
}

impl Text {
    pub fn read(text: &[u8], reading: Reading) -> Text {
        let mut read = Text { said: Vec::new(), faults: Vec::new() };
        for (number, line) in lines_instead(lines(text), reading).iter().enumerate() {
            match line.read(reading) {
                Ok(said) => read.said.push(said),
                Err(reply) => {
                    let place = line.place_instead(number, reply, reading).unwrap_or(line.offset);
                    read.faults.push(Refusal { reply, place });
                }
            }
        }
        read
    }

    /// "by the first faulty line, with its offset"
    pub fn fault(&self, reading: Reading) -> Option<Refusal> {
        deciding_instead(&self.faults, reading).or(self.faults.first().copied())
    }
}

/// "20 two or four fields, else 18 not such a line or a state above 65,535, else 19 a label 0 or above 32"
fn order(reading: Reading) -> [u8; 3] {
    reading.value([20, 18, 19], Wrong::LabelBeforeLine, [20, 19, 18])
}

impl TextLine<'_> {
    /// "tab-separated": one field more than there are tabs.
    pub fn fields(&self, reading: Reading) -> Vec<&[u8]> {
        self.fields_instead(reading).unwrap_or_else(|| self.content.split(|byte| *byte == b'\t').collect())
    }

    /// What the line says, or the reply that it is refused with.
    fn read(&self, reading: Reading) -> Result<Said, u8> {
        let said = self.said(reading);
        match order(reading).into_iter().find(|reply| self.has_fault(*reply, said, reading)) {
            Some(reply) => Err(reply_instead(self, reply, said, reading)),
            None => Ok(said.expect("a line without a fault")),
        }
    }

    fn has_fault(&self, reply: u8, said: Option<Said>, reading: Reading) -> bool {
        match reply {
            20 => {
                let truly = matches!(self.fields(reading).len(), 2 | 4);
                self.is_weighted_instead(truly, reading).unwrap_or(truly)
            }
            18 => {
                let unended = !self.is_ended && !reading.is(Wrong::NewlineNotNeeded);
                unended || said.is_none_or(|said| self.names_large_state(said, reading))
            }
            _ => said.and_then(Said::label).is_some_and(|label| !labels(reading).contains(&label)),
        }
    }

    /// What its fields say, if there are as many as there should be and all are numbers.
    fn said(&self, reading: Reading) -> Option<Said> {
        let number = |digits: &[u8], field: Field| number(digits, field, reading);
        match self.fields(reading)[..] {
            [source, destination, label] => {
                let (destination, label) =
                    reading.value((destination, label), Wrong::LabelInTheMiddle, (label, destination));
                let (source, destination) = (number(source, Field::Source)?, number(destination, Field::Destination)?);
                Some(Said::Arc { source, destination, label: number(label, Field::Label)? })
            }
            [state] => Some(Said::Final(number(state, Field::Final)?)),
            _ => None,
        }
    }

    fn names_large_state(&self, said: Said, reading: Reading) -> bool {
        let is_large = |state: u64, field: Field| is_large(state, field, reading);
        match said {
            Said::Arc { source, destination, .. } => {
                is_large(source, Field::Source) || is_large(destination, Field::Destination)
            }
            Said::Final(state) => is_large(state, Field::Final),
        }
    }
}

fn is_large(state: u64, field: Field, reading: Reading) -> bool {
    let highest = reading.value(HIGHEST_STATE, Wrong::HighestStateRefused, HIGHEST_STATE - 1);
    let highest = reading.value(highest, Wrong::NextStateAccepted, HIGHEST_STATE + 1);
    let free = [
        (Wrong::SourceFree, Field::Source),
        (Wrong::DestinationFree, Field::Destination),
        (Wrong::FinalFree, Field::Final),
    ];
    state > highest && !free.iter().any(|(wrong, free)| reading.is(*wrong) && field == *free)
}

/// "decimal numbers": digits and nothing else, zeros in front among them. A number beyond 64 bits is above every limit,
/// and so is the one that it gives here.
pub fn number(digits: &[u8], field: Field, reading: Reading) -> Option<u64> {
    if let Some(instead) = number_instead(digits, field, reading) {
        return instead;
    }
    let digit = |byte: &u8| byte.is_ascii_digit().then(|| u64::from(byte - b'0'));
    let digits: Option<Vec<u64>> = digits.iter().map(digit).collect();
    let digits = digits.filter(|digits| !digits.is_empty())?;
    Some(digits.iter().fold(0, |number: u64, digit| number.saturating_mul(10).saturating_add(*digit)))
}
