//! Rules at random, often made from an earlier rule so that candidates overlap and tie.

use super::alphabet::Alphabet;
use super::parts;
use crate::book::{MOST_ARCS, MOST_RULES, MOST_STATES};
use crate::chance::Chance;
use crate::draft::{Part, Rule};

/// How often a focus of the book accepts the empty word; never in many books, since nothing may change there.
#[derive(Clone, Copy)]
enum EmptyFoci {
    Never,
    OneInTwo,
    Always,
}

/// The rules of a valid book.
pub fn rules(alphabet: &Alphabet, chance: &mut Chance) -> Vec<Rule> {
    let wanted = chance.weighted(&[(6, 1), (7, 2), (5, 3), (3, 4), (2, 6), (1, MOST_RULES)]);
    let empty = chance.weighted(&[(4, EmptyFoci::Never), (4, EmptyFoci::OneInTwo), (2, EmptyFoci::Always)]);
    let mut rules: Vec<Rule> = Vec::new();
    for _ in 0..wanted {
        let rule = match rules.is_empty() || chance.one_in(2) {
            true => new_rule(empty, alphabet, chance),
            false => like_an_earlier(&rules, empty, alphabet, chance),
        };
        if !fits(&rules, &rule) {
            break;
        }
        rules.push(rule);
    }
    rules
}

/// Whether the book may have this rule too.
pub fn fits(rules: &[Rule], rule: &Rule) -> bool {
    let states: usize = rules.iter().map(Rule::states).sum();
    let arcs: usize = rules.iter().map(Rule::arcs).sum();
    states + rule.states() <= MOST_STATES && arcs + rule.arcs() <= MOST_ARCS
}

fn new_rule(empty: EmptyFoci, alphabet: &Alphabet, chance: &mut Chance) -> Rule {
    let left = parts::context(alphabet, chance);
    let focus = focus(empty, alphabet, chance);
    let right = parts::context(alphabet, chance);
    Rule::new(left, focus, right, &word(alphabet, chance))
}

fn focus(empty: EmptyFoci, alphabet: &Alphabet, chance: &mut Chance) -> Part {
    let accepts_empty = match empty {
        EmptyFoci::Never => false,
        EmptyFoci::OneInTwo => chance.one_in(2),
        EmptyFoci::Always => true,
    };
    match accepts_empty {
        false => parts::focus(alphabet, chance),
        true => parts::empty_focus(alphabet, chance),
    }
}

/// Another word always; then the same three parts, another context, or a longer focus.
fn like_an_earlier(rules: &[Rule], empty: EmptyFoci, alphabet: &Alphabet, chance: &mut Chance) -> Rule {
    let mut rule = chance.pick(rules);
    rule.word = word(alphabet, chance);
    let [left, focus, right] = &mut rule.parts;
    match chance.below(5) {
        0 => *left = parts::context(alphabet, chance),
        1 => *right = parts::context(alphabet, chance),
        2 => *focus = parts::lengthened(focus.clone(), alphabet, chance),
        3 => *focus = self::focus(empty, alphabet, chance),
        _ => {}
    }
    rule
}

pub fn word(alphabet: &Alphabet, chance: &mut Chance) -> Vec<u8> {
    let length = chance.weighted(&[(4, 0), (6, 1), (4, 2), (2, 3), (1, 4), (1, 5), (1, 6), (1, 7), (1, 8)]);
    (0..length).map(|_| if chance.one_in(3) { alphabet.any(chance) } else { alphabet.symbol(chance) }).collect()
}
