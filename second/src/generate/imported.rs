//! Books with an imported part: the rule record, its parts one after another, and one of them what IMPORT writes for a
//! text after so many states.

use super::alphabet::Alphabet;
use super::rules::fits;
use super::texts::{self, Size};
use crate::chance::Chance;
use crate::draft::{self, Rule};
use crate::import;
use crate::reading::Reading;
use crate::record;
use crate::text::Text;

/// The records of a book of these rules; one book in eight has an imported part.
pub fn records_of(rules: &mut [Rule], alphabet: &Alphabet, chance: &mut Chance) -> Vec<Vec<u8>> {
    match chance.one_in(8) {
        false => draft::mixed_records(rules, chance),
        true => with_imported_part(rules, alphabet, chance),
    }
}

/// The records of a book of these rules, of which one gets an imported part in the place of its own.
fn with_imported_part(rules: &mut [Rule], alphabet: &Alphabet, chance: &mut Chance) -> Vec<Vec<u8>> {
    let text = texts::text(Size::small(chance), alphabet, chance);
    let imported = import::part(&Text::read(&text, Reading::TRUE).said, Reading::TRUE);
    let (at, part) = (chance.below(rules.len()), chance.below(3));
    let own = std::mem::replace(&mut rules[at].parts[part], imported);
    if !fits(&rules[1..], &rules[0]) {
        rules[at].parts[part] = own;
    }
    let mut book = Vec::new();
    let mut given = 0;
    for rule in rules.iter() {
        book.push(record::rule(&rule.word));
        let mut order = [0, 1, 2];
        chance.shuffle(&mut order);
        for part in order {
            book.extend(import::records(&rule.parts[part], part as u8, given));
            given += rule.parts[part].flags.len();
        }
    }
    book.push(record::end());
    book
}
