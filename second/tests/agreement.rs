//! The fast stand-in against the plain reading beyond the sizes of the random run, where it stands alone there.

use second::agreement::{PLAIN_SETS, PLAIN_TAPE};
use second::book::{self, Book};
use second::chance::Chance;
use second::draft::{self, Part, Rule};
use second::fast;
use second::generate::alphabet::Alphabet;
use second::generate::{full, rules};
use second::numbering::{self, MOST_SETS};
use second::reading::Reading;
use second::sets::right_set;
use second::stretches::Stretches;

fn read(rules: &[Rule]) -> Book {
    book::read(&draft::book(rules), Reading::TRUE).expect("a valid book")
}

/// Both readings of a side with at most 256 sets.
fn number_alike(book: &Book) {
    let left = numbering::left(book, MOST_SETS, Reading::TRUE);
    assert_eq!(left, fast::sets::left(book, MOST_SETS, Reading::TRUE));
    let right = numbering::right(book, MOST_SETS, Reading::TRUE);
    assert_eq!(right, fast::sets::right(book, MOST_SETS, Reading::TRUE));
}

#[test]
fn up_to_256_sets_and_past_them() {
    for places in [7, 8, 9] {
        assert!(1 << places > PLAIN_SETS, "both sides stand past the plain numbering");
        number_alike(&read(&[Rule::idle(full::places_before(places), full::places_before(places).mirrored())]));
    }
    for sets in [PLAIN_SETS, PLAIN_SETS + 1, 100] {
        let part = full::counters(sets, 8, &mut Chance::of(5, sets as u64));
        number_alike(&read(&[Rule::idle(part.clone(), Part::any())]));
        number_alike(&read(&[Rule::idle(Part::any(), part.mirrored())]));
    }
}

#[test]
fn tapes_longer_than_are_read_plainly() {
    let (mut candidates, mut inserted, mut at_end) = (0, 0, 0);
    for number in 0..30 {
        let chance = &mut Chance::of(8, number);
        let alphabet = Alphabet::of(chance);
        let mut rules = rules::rules(&alphabet, chance);
        rules.truncate(3);
        let book = read(&rules);
        let length = PLAIN_TAPE + chance.between(1, PLAIN_TAPE / 2);
        let tape: Vec<u8> = (0..length).map(|_| alphabet.symbol(chance)).collect();
        let plain = Stretches::plainly(&book, &tape, Reading::TRUE);
        assert_eq!(plain, Stretches::fast(&book, &tape), "book {number}");
        let sets: Vec<u64> = (0..=length).map(|i| right_set(&book, &tape, i, Reading::TRUE)).collect();
        assert_eq!(sets, fast::sets::right_sets(&book, &tape), "book {number}");
        candidates += plain.count;
        inserted += plain.taken.iter().filter(|taken| taken.is_empty()).count();
        at_end += plain.taken.iter().filter(|taken| taken.start == length).count();
    }
    assert!(candidates > 1000 && inserted > 200 && at_end > 5, "{candidates} {inserted} {at_end}");
}
