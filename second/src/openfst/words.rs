//! Lists of words as OpenFst's texts, and back.

use std::collections::BTreeSet;

pub type Words = BTreeSet<Vec<u8>>;

/// Every stretch of these tapes, the empty one too.
pub fn stretches(tapes: &[Vec<u8>]) -> Words {
    let fronts = tapes.iter().flat_map(|tape| (0..=tape.len()).map(|end| &tape[..end]));
    fronts.flat_map(|front| (0..=front.len()).map(|begin| front[begin..].to_vec())).collect()
}

/// An acceptor of exactly these words, a state for each. With each word all that it begins with must be in the list.
pub fn listed(words: &Words) -> String {
    let mut text = String::new();
    // In the list a word stands after all that it begins with: the states of these, the shortest first.
    let mut before: Vec<usize> = Vec::new();
    for (state, word) in words.iter().enumerate() {
        before.truncate(word.len());
        if let (Some(from), Some(symbol)) = (before.last(), word.last()) {
            text += &format!("{from}\t{state}\t{}\n", symbol + 1);
        }
        before.push(state);
    }
    text + &(0..words.len()).map(|state| format!("{state}\n")).collect::<String>()
}

/// The words of a printed acceptor without cycles: each path from the first line's first state to a final one.
pub fn accepted(printed: &str) -> Words {
    let lines: Vec<Vec<&str>> = printed.lines().map(|line| line.split('\t').collect()).collect();
    let mut words = Words::new();
    let mut paths: Vec<(&str, Vec<u8>)> = lines.first().map(|line| (line[0], Vec::new())).into_iter().collect();
    while let Some((state, word)) = paths.pop() {
        for line in lines.iter().filter(|line| line[0] == state) {
            match line[..] {
                [_, next, label] => {
                    let label: u8 = label.parse().expect("a label of the list");
                    paths.push((next, [&word[..], &[label - 1]].concat()));
                }
                _ => drop(words.insert(word.clone())),
            }
        }
    }
    words
}
