//! "The accepted words are exactly the text's, proved once for the three parts": the words of the records, in a book
//! that CHECK accepts, against a search for paths through the lines of the text itself.

use second::book::{self, Book};
use second::call::{Call, Operation};
use second::chance::Chance;
use second::generate::alphabet::Alphabet;
use second::generate::texts::{self, Size};
use second::language::Language;
use second::operations::answer;
use second::reading::Reading;
use second::record;

const TEXTS: u64 = 1500;
const LONGEST: usize = 4;

/// The fields of each line, as numbers.
fn lines(text: &str) -> Vec<Vec<u64>> {
    let number = |field: &str| field.parse().expect("a number");
    text.lines().map(|line| line.split('\t').map(number).collect()).collect()
}

/// Whether some path over this word leads from this state to a final one.
fn leads(lines: &[Vec<u64>], from: u64, word: &[u8]) -> bool {
    let Some((symbol, rest)) = word.split_first() else { return lines.contains(&vec![from]) };
    let arcs = lines.iter().filter(|line| line.len() == 3 && line[0] == from && line[2] == u64::from(*symbol) + 1);
    arcs.into_iter().any(|arc| leads(lines, arc[1], rest))
}

fn is_accepted(lines: &[Vec<u64>], word: &[u8]) -> bool {
    lines.first().is_some_and(|first| leads(lines, first[0], word))
}

/// The book of one rule in which so many states stand before the imported ones, some of another rule before it.
fn book_around(text: &[u8], part: u8, first: u8) -> Book {
    let mut call = Call::new(Operation::Import);
    call.book = text.to_vec();
    call.line = u32::from_le_bytes([part, first, 0, 0]);
    call.lengths.out = 4000;
    let imported = answer(&call, Reading::TRUE);
    assert_eq!(imported.reply, 0, "{}", text.escape_ascii());
    let records = imported.lent.out[..imported.counts[0] as usize].to_vec();
    let before = first / 2;
    let states = |count: u8| (0..count).map(|at| record::state(at % 3, at % 4)).collect::<Vec<_>>().concat();
    let other = if part == 2 { 0 } else { part + 1 };
    let own = (0..first - before).map(|_| record::state(other, 3)).collect::<Vec<_>>().concat();
    let rules = [record::rule(&[1]), states(before), record::rule(&[2]), own, records, record::end()].concat();
    book::read(&rules, Reading::TRUE).unwrap_or_else(|refusal| panic!("{refusal:?}: {}", text.escape_ascii()))
}

/// All words up to a length of these symbols.
fn words(symbols: &[u8], longest: usize) -> Vec<Vec<u8>> {
    let mut words = vec![Vec::new()];
    let mut from = 0;
    for _ in 0..longest {
        let to = words.len();
        for at in from..to {
            let longer: Vec<Vec<u8>> = symbols.iter().map(|symbol| [&words[at][..], &[*symbol]].concat()).collect();
            words.extend(longer);
        }
        from = to;
    }
    words
}

/// Up to three symbols of the text, and one more.
fn symbols(lines: &[Vec<u64>], chance: &mut Chance) -> Vec<u8> {
    let mut symbols: Vec<u8> = lines.iter().filter(|line| line.len() == 3).map(|line| line[2] as u8 - 1).collect();
    chance.shuffle(&mut symbols);
    symbols.dedup();
    symbols.truncate(3);
    symbols.push(chance.below(32) as u8);
    symbols
}

#[test]
fn accepted_words_are_the_texts() {
    let (mut accepted, mut others) = ([0; 3], [0; 3]);
    for number in 0..TEXTS {
        let chance = &mut Chance::of(17, number);
        let text = texts::text(Size::small(chance), &Alphabet::of(chance), chance);
        let lines = lines(std::str::from_utf8(&text).expect("digits, tabs and newlines"));
        let (part, first) = ((number % 3) as u8, chance.below(40) as u8);
        let book = book_around(&text, part, first);
        let language = Language::of(&book, 1, part, Reading::TRUE);
        for word in words(&symbols(&lines, chance), LONGEST) {
            let expected = is_accepted(&lines, &word);
            assert_eq!(language.holds(&word), expected, "{}: {word:?}", text.escape_ascii());
            let count = if expected { &mut accepted } else { &mut others };
            count[part as usize] += 1;
        }
    }
    println!("{accepted:?} words accepted, {others:?} not");
    assert!(accepted.iter().all(|words| *words > 3000) && others.iter().all(|words| *words > 3000));
}

/// "An empty text gives one state with flags 0": no word at all.
#[test]
fn an_empty_text_has_no_word() {
    for part in 0..3 {
        let book = book_around(b"", part, 3);
        assert!(words(&[0, 31], 3).iter().all(|word| !Language::of(&book, 1, part, Reading::TRUE).holds(word)));
    }
}
