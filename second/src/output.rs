//! The output and its origins: document 01, "Which stretches are replaced", and document 02, No. 4 and No. 5. What
//! wrong readings make of a replacement's origins is in `wrong_mark`, what they keep around an inserted word in
//! `wrong_insertion`, and what they make of symbols above 15 in `wrong_symbol`.

use crate::book::Book;
use crate::candidates::Stretch;
use crate::reading::{Reading, Wrong};
use crate::wrong_insertion::{kept_around, with_kept_late};
use crate::wrong_symbol::folded;

pub struct Output {
    pub symbols: Vec<u8>,
    /// "Each output symbol has a 16-bit origin"
    pub origins: Vec<u16>,
}

/// One symbol of a replacement.
pub struct Mark<'a> {
    pub word: &'a [u8],
    /// The symbol's place in the word.
    pub place: usize,
    /// The stretch that the word replaces.
    pub stretch: Stretch,
    /// The tape of the stretch, which only wrong readings look at.
    pub tape: &'a [u8],
    /// The output symbols written before this one; likewise.
    pub written: usize,
}

/// "The output replaces each taken stretch by its rule's word and keeps the rest." Document 02, No. 5: "if it is empty,
/// the word is written and the symbol at that position is kept".
pub fn output(book: &Book, tape: &[u8], taken: &[Stretch], reading: Reading) -> Output {
    let mut output = Output { symbols: Vec::new(), origins: Vec::new() };
    let mut position = 0;
    for stretch in taken {
        let (up_to, from) = kept_around(*stretch, tape, reading).unwrap_or((stretch.start, stretch.end));
        output.keep(tape, position, up_to, reading);
        output.replace(tape, *stretch, &book.words[stretch.rule], reading);
        position = position.max(from);
    }
    output.keep(tape, position, tape.len(), reading);
    with_kept_late(output, tape, taken, reading)
}

impl Output {
    /// "a kept symbol its own position"
    fn keep(&mut self, tape: &[u8], from: usize, to: usize, reading: Reading) {
        for (position, symbol) in tape.iter().enumerate().take(to).skip(from) {
            let origin = reading.value(position, Wrong::OriginInOutput, self.symbols.len());
            self.symbols.push(reading.value(*symbol, Wrong::KeptFolded, folded(*symbol)));
            self.origins.push(origin as u16);
        }
    }

    fn replace(&mut self, tape: &[u8], stretch: Stretch, word: &[u8], reading: Reading) {
        for (place, symbol) in word.iter().enumerate() {
            let mark = Mark { word, place, stretch, tape, written: self.symbols.len() };
            let origin = mark.wrong_origin(reading).unwrap_or(mark.origin());
            self.symbols.push(reading.value(*symbol, Wrong::WordFolded, folded(*symbol)));
            self.origins.push(origin as u16);
        }
    }
}

impl Mark<'_> {
    /// "every symbol of a replacement the start of the stretch". Document 02, No. 4: "When a replacement has two or
    /// more symbols, the last one's origin is the last position of the stretch; the others keep the start." No. 5:
    /// "Every origin of an inserted word is its position, n at the tape's end."
    fn origin(&self) -> usize {
        if self.closes() && !self.stretch.is_empty() {
            self.stretch.end - 1
        } else {
            self.stretch.start
        }
    }

    /// Whether the symbol is the last of two or more.
    pub fn closes(&self) -> bool {
        self.word.len() >= 2 && self.is_last()
    }

    pub fn is_last(&self) -> bool {
        self.place + 1 == self.word.len()
    }
}
