//! Wrong readings of the text that IMPORT reads: document 02, No. 7. Without one, each of these leaves what `text` says.

use std::ops::RangeInclusive;

use crate::book::Refusal;
use crate::reading::{Reading, Wrong};
use crate::text::{number, Field, Said, TextLine, HIGHEST_LABEL};
use crate::wrong_symbol::OLD_SYMBOLS;

/// The lines that are read, and what is read of them.
pub fn lines_instead<'a>(mut lines: Vec<TextLine<'a>>, reading: Reading) -> Vec<TextLine<'a>> {
    let is_bare = |line: &TextLine| line.is_ended && line.content.is_empty();
    if reading.is(Wrong::BareLineSkipped) {
        lines.retain(|line| !is_bare(line));
    }
    while reading.is(Wrong::BareEndSkipped) && lines.last().is_some_and(is_bare) {
        lines.pop();
    }
    if reading.is(Wrong::BareLineEnds) {
        lines.truncate(lines.iter().position(is_bare).unwrap_or(lines.len()));
    }
    if reading.is(Wrong::UnendedLineDropped) {
        lines.retain(|line| line.is_ended);
    }
    if reading.is(Wrong::ReturnTolerated) {
        lines.iter_mut().for_each(|line| line.content = line.content.strip_suffix(b"\r").unwrap_or(line.content));
    }
    if reading.is(Wrong::TextEndsAtZero) {
        cut_at_zero(&mut lines);
    }
    lines
}

/// The lines up to the first byte 0.
fn cut_at_zero(lines: &mut Vec<TextLine>) {
    let zero = |line: &TextLine| line.content.iter().position(|byte| *byte == 0);
    let Some(at) = lines.iter().position(|line| zero(line).is_some()) else { return };
    lines.truncate(at + 1);
    let last = &mut lines[at];
    last.content = &last.content[..zero(last).unwrap_or(0)];
    last.is_ended = false;
    if last.content.is_empty() {
        lines.pop();
    }
}

/// The fault that decides by the wrong reading that is put in, if that is one of these.
pub fn deciding_instead(faults: &[Refusal], reading: Reading) -> Option<Refusal> {
    let first = |wanted: fn(u8) -> bool| faults.iter().copied().find(|fault| wanted(fault.reply));
    match () {
        _ if reading.is(Wrong::LastFaultyLine) => faults.last().copied(),
        _ if reading.is(Wrong::FieldsOfTextFirst) => first(|reply| reply == 20),
        _ if reading.is(Wrong::LabelsOfTextLast) => first(|reply| reply != 19),
        _ => None,
    }
}

/// The labels that are accepted.
pub fn labels(reading: Reading) -> RangeInclusive<u64> {
    let lowest = [Wrong::ZeroLabelRead, Wrong::ZeroLabelDropped, Wrong::LabelsFromZero];
    let lowest = u64::from(!lowest.iter().any(|wrong| reading.is(*wrong)));
    let highest = [
        (Wrong::LabelsFromZero, HIGHEST_LABEL - 1),
        (Wrong::LabelsToThirtyOne, HIGHEST_LABEL - 1),
        (Wrong::LabelsToThirtyThree, HIGHEST_LABEL + 1),
        (Wrong::LabelsToSixteen, OLD_SYMBOLS as u64),
    ];
    let instead = highest.iter().find(|(wrong, _)| reading.is(*wrong));
    lowest..=instead.map_or(HIGHEST_LABEL, |(_, highest)| *highest)
}

/// The reply to a line at fault.
pub fn reply_instead(line: &TextLine, reply: u8, said: Option<Said>, reading: Reading) -> u8 {
    let is = |wrong: Wrong| reading.is(wrong);
    let only_state = line.is_ended && said.is_some();
    let is_zero = said.and_then(Said::label) == Some(0);
    match reply {
        20 if is(Wrong::FieldsAreLine) || is(Wrong::EighteenForTwenty) => 18,
        18 if is(Wrong::EighteenForTwenty) => 20,
        18 if is(Wrong::EighteenForNineteen) => 19,
        19 if is(Wrong::EighteenForNineteen) => 18,
        18 if is(Wrong::LargeStateIsLabel) && only_state => 19,
        18 if is(Wrong::UnendedIsWeighted) && !line.is_ended => 20,
        18 if is(Wrong::BareIsWeighted) && line.content.is_empty() => 20,
        19 if is(Wrong::ZeroLabelIsLine) && is_zero => 18,
        19 if is(Wrong::LargeLabelIsLine) && !is_zero => 18,
        _ => reply,
    }
}

/// The number that digits give by the wrong reading that is put in, if that is one of these and it concerns them.
pub fn number_instead(digits: &[u8], field: Field, reading: Reading) -> Option<Option<u64>> {
    let is = |wrong: Wrong| reading.is(wrong);
    let truly = |digits: &[u8]| number(digits, field, Reading::TRUE);
    let has_zero = digits.len() > 1 && digits[0] == b'0';
    let front = digits.iter().position(|byte| !byte.is_ascii_digit()).unwrap_or(digits.len());
    let is_label = field == Field::Label;
    match () {
        _ if reading.is_true() => None,
        _ if is(Wrong::LeadingZerosRefused) && has_zero => Some(None),
        _ if is(Wrong::LeadingZerosOctal) && has_zero => Some(wrapped(digits, 8, 64)),
        _ if is(Wrong::LongStateRefused) && !is_label && digits.len() > 5 => Some(None),
        _ if is(Wrong::LongLabelRefused) && is_label && digits.len() > 2 => Some(None),
        _ if is(Wrong::PlusTolerated) => Some(truly(digits.strip_prefix(b"+").unwrap_or(digits))),
        _ if is(Wrong::MinusTolerated) => Some(truly(digits.strip_prefix(b"-").unwrap_or(digits))),
        _ if is(Wrong::BlanksDropped) => Some(truly(digits.trim_ascii())),
        _ if is(Wrong::EmptyFieldIsZero) && digits.is_empty() => Some(Some(0)),
        _ if is(Wrong::FieldReadToDigits) => Some(truly(&digits[..front])),
        _ => bits(field, reading).map(|bits| wrapped(digits, 10, bits)),
    }
}

/// How many bits a number has by the wrong reading that is put in, if that is one of these.
fn bits(field: Field, reading: Reading) -> Option<u32> {
    let of_states = [(Wrong::StateOf16Bits, 16), (Wrong::StateOf32Bits, 32), (Wrong::StateOf64Bits, 64)];
    let of_labels = [
        (Wrong::LabelOf5Bits, 5),
        (Wrong::LabelOf8Bits, 8),
        (Wrong::LabelOf16Bits, 16),
        (Wrong::LabelOf32Bits, 32),
        (Wrong::LabelOf64Bits, 64),
    ];
    let of_field = if field == Field::Label { &of_labels[..] } else { &of_states[..] };
    of_field.iter().find(|(wrong, _)| reading.is(*wrong)).map(|(_, bits)| *bits)
}

/// The number that wraps around after so many bits.
fn wrapped(digits: &[u8], base: u32, bits: u32) -> Option<u64> {
    let add = |number: u128, byte: &u8| {
        let digit = char::from(*byte).to_digit(base)?;
        Some((number * u128::from(base) + u128::from(digit)) % (1 << bits))
    };
    let number = digits.iter().try_fold(0, add)?;
    (!digits.is_empty()).then_some(number as u64)
}

impl<'a> TextLine<'a> {
    /// Other fields than those between the tabs.
    pub fn fields_instead(&self, reading: Reading) -> Option<Vec<&'a [u8]>> {
        let tabs = |content: &'a [u8]| content.split(|byte| *byte == b'\t');
        let is_blank = |byte: &u8| matches!(byte, b'\t' | b' ');
        match () {
            _ if reading.is(Wrong::BlankSeparates) => Some(self.content.split(is_blank).collect()),
            _ if reading.is(Wrong::EmptyFieldsUncounted) => {
                Some(tabs(self.content).filter(|field| !field.is_empty()).collect())
            }
            _ if reading.is(Wrong::LastTabDropped) => {
                Some(tabs(self.content.strip_suffix(b"\t").unwrap_or(self.content)).collect())
            }
            _ => None,
        }
    }

    /// Whether 20 is given, by the wrong reading that is put in, if that is one of these.
    pub fn is_weighted_instead(&self, truly: bool, reading: Reading) -> Option<bool> {
        if reading.is_true() {
            return None;
        }
        let fields = self.fields(reading);
        let are_numbers =
            |fields: &[&[u8]]| fields.iter().all(|field| number(field, Field::Final, Reading::TRUE).is_some());
        let count = fields.len();
        let instead = [
            (Wrong::TwoFieldsAlone, count == 2),
            (Wrong::FourFieldsAlone, count == 4),
            (Wrong::FiveFieldsWeighted, truly || count == 5),
            (Wrong::MoreFieldsWeighted, truly || count >= 5),
            (Wrong::NumbersBeforeFields, truly && are_numbers(&fields)),
            (Wrong::StatesBeforeWeight, truly && are_numbers(&fields[..count.saturating_sub(1)])),
            (Wrong::NewlineBeforeFields, truly && self.is_ended),
            (Wrong::ReturnBeforeFields, truly && !self.content.contains(&b'\r')),
        ];
        instead.into_iter().find(|(wrong, _)| reading.is(*wrong)).map(|(_, weighted)| weighted)
    }

    /// The place of a fault by the wrong reading that is put in, if that is one of these.
    pub fn place_instead(&self, number: usize, reply: u8, reading: Reading) -> Option<usize> {
        if reading.is_true() {
            return None;
        }
        let end = self.offset + self.content.len();
        let last_field = self.content.iter().rposition(|byte| *byte == b'\t').map_or(0, |tab| tab + 1);
        let bad_byte = self.content.iter().position(|byte| !matches!(byte, b'0'..=b'9' | b'\t'));
        let only = |given: u8, place: usize| if reply == given { place } else { self.offset };
        let instead = [
            (Wrong::FaultFromZero, number),
            (Wrong::FaultFromOne, number + 1),
            (Wrong::FaultPlaceZero, 0),
            (Wrong::FaultAtEnd, end),
            (Wrong::FaultAfter, end + usize::from(self.is_ended)),
            (Wrong::EighteenAtByte, only(18, self.offset + bad_byte.unwrap_or(self.content.len()))),
            (Wrong::NineteenAtLabel, only(19, self.offset + last_field)),
            (Wrong::TwentyAtWeight, only(20, self.offset + last_field)),
        ];
        instead.into_iter().find(|(wrong, _)| reading.is(*wrong)).map(|(_, place)| place)
    }
}
