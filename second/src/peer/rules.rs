//! Rules that a peer can read too, with all the outputs that it may give.

use super::expression::{letter, Expression, LETTERS};
use crate::book::{Book, SYMBOLS};
use crate::chance::Chance;
use crate::draft::{Part, Rule};
use crate::reading::Reading;
use crate::stretches::Stretches;

/// A rule by its expressions; no context is "any".
pub struct PeerRule {
    left: Option<Expression>,
    focus: Expression,
    right: Option<Expression>,
    /// Symbols of the word, letters that stand on tapes and capitals that do not.
    word: Vec<u8>,
}

/// How a rule is written.
pub struct Manner {
    /// The sign that says on which side the contexts are looked for.
    pub contexts: &'static str,
    /// What stands for an empty word.
    pub empty_word: &'static str,
}

/// From here symbols are written as capital letters: half of them.
const FIRST_CAPITAL: u8 = SYMBOLS as u8 / 2;

/// A symbol of a tape or of a word.
pub fn written(symbol: u8) -> char {
    match symbol < FIRST_CAPITAL {
        true => letter(symbol),
        false => letter(symbol - FIRST_CAPITAL).to_ascii_uppercase(),
    }
}

impl PeerRule {
    pub fn of(chance: &mut Chance) -> PeerRule {
        let left = context(chance);
        let right = context(chance);
        let focus = loop {
            let focus = Expression::of(chance.between(1, 4), chance);
            if !focus.holds_empty() {
                break focus;
            }
        };
        let word = (0..chance.below(4)).map(|_| word_symbol(chance)).collect();
        PeerRule { left, focus, right, word }
    }

    /// `F @-> W || L _ R`
    pub fn written(&self, manner: &Manner) -> String {
        let word: Vec<String> = self.word.iter().map(|symbol| written(*symbol).to_string()).collect();
        let word = if word.is_empty() { manner.empty_word.to_string() } else { word.join(" ") };
        let context = |part: &Option<Expression>| part.as_ref().map_or(String::new(), Expression::written);
        let (left, right) = (context(&self.left), context(&self.right));
        format!("{} @-> {word} {} {left} _ {right}", self.focus.written(), manner.contexts)
    }

    pub fn rule(&self) -> Rule {
        let context = |part: &Option<Expression>| part.as_ref().map_or(Part::any(), Expression::part);
        Rule::new(context(&self.left), self.focus.part(), context(&self.right), &self.word)
    }
}

fn word_symbol(chance: &mut Chance) -> u8 {
    chance.below(LETTERS) as u8 + chance.pick(&[0, FIRST_CAPITAL])
}

fn context(chance: &mut Chance) -> Option<Expression> {
    (!chance.one_in(3)).then(|| Expression::of(chance.between(1, 3), chance))
}

/// Every output that comes of taking, at each taken stretch, any one of the rules that tie for it. The document's own
/// output takes the lowest and is the first.
pub fn outputs(book: &Book, tape: &[u8]) -> Vec<String> {
    let stretches = Stretches::plainly(book, tape, Reading::TRUE);
    let mut outputs = vec![String::new()];
    let mut position = 0;
    for stretch in &stretches.taken {
        let kept: String = tape[position..stretch.start].iter().map(|symbol| written(*symbol)).collect();
        let tying = stretches.listed.iter().filter(|tied| (tied.start, tied.end) == (stretch.start, stretch.end));
        let words = tying.map(|tied| book.words[tied.rule].iter().map(|symbol| written(*symbol)).collect());
        let words: Vec<String> = words.collect();
        let kept = &kept;
        let continued = |before: &String| words.iter().map(|word| format!("{before}{kept}{word}")).collect::<Vec<_>>();
        outputs = outputs.iter().flat_map(continued).collect();
        position = stretch.end;
    }
    let rest: String = tape[position..].iter().map(|symbol| written(*symbol)).collect();
    outputs.iter().map(|output| format!("{output}{rest}")).collect()
}
