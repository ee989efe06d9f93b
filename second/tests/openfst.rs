//! Lists of words as texts, which `second openfst` puts to OpenFst, and back; the reference reads them alike.

use second::book;
use second::call::{Call, Operation};
use second::chance::Chance;
use second::language::Language;
use second::openfst::drawing::all_of_three;
use second::openfst::words::{accepted, listed, stretches, Words};
use second::operations::answer;
use second::reading::Reading;
use second::record::{self, FOCUS};

fn tape(longest: usize, symbols: usize, chance: &mut Chance) -> Vec<u8> {
    (0..chance.below(longest + 1)).map(|_| chance.below(symbols) as u8).collect()
}

#[test]
fn stretches_by_hand() {
    let words: Words =
        [&[][..], &[1], &[1, 2], &[1, 2, 1], &[2], &[2, 1], &[0]].iter().map(|word| word.to_vec()).collect();
    assert_eq!(stretches(&[vec![1, 2, 1], vec![0]]), words);
    assert_eq!(listed(&stretches(&[vec![1, 2]])), "0\t1\t2\n1\t2\t3\n0\t3\t3\n0\n1\n2\n3\n");
    assert_eq!(accepted("4\t2\t1\n4\n2\t3\t32\n3\n"), [vec![], vec![0, 31]].into_iter().collect());
    assert_eq!(accepted(""), Words::new());
}

#[test]
fn lists_are_read_as_they_were_written() {
    for number in 0..200 {
        let chance = &mut Chance::of(3, number);
        let words = stretches(&[tape(20, 3, chance), tape(20, 32, chance)]);
        assert_eq!(accepted(&listed(&words)), words, "{number}");
    }
}

/// IMPORT of a list accepts its words and no others.
#[test]
fn lists_are_imported() {
    for number in 0..200 {
        let chance = &mut Chance::of(4, number);
        let words = stretches(&[tape(8, 3, chance)]);
        let mut call = Call::new(Operation::Import);
        (call.book, call.line) = (listed(&words).into_bytes(), FOCUS.into());
        call.lengths.out = 8 * words.len();
        let imported = answer(&call, Reading::TRUE);
        let records = &imported.lent.out[..imported.counts[0] as usize];
        let book = [&record::rule(&[]), records, &record::end()].concat();
        let book = book::read(&book, Reading::TRUE).expect("a valid book");
        let language = Language::of(&book, 0, FOCUS, Reading::TRUE);
        let others = stretches(&[tape(8, 4, chance), tape(8, 4, chance)]);
        assert!(words.union(&others).all(|word| language.holds(word) == words.contains(word)), "{number}");
    }
}

#[test]
fn every_word_of_three() {
    for symbols in [&[5][..], &[5, 0], &[31, 0, 16]] {
        let tape = all_of_three(symbols);
        let words = stretches(std::slice::from_ref(&tape)).into_iter().filter(|word| word.len() == 3).count();
        assert_eq!((words, tape.len()), (symbols.len().pow(3), symbols.len().pow(3) + 2));
    }
}
