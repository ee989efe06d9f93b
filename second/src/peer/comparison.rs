//! `second peer`: random books through foma or hfst, compared with the reference.

use std::io;

use super::rules::{outputs, written, Manner};
use super::script::{Case, MARK};
use crate::book;
use crate::chance::Chance;
use crate::command::Command;
use crate::reading::Reading;

/// A peer and the class of books that are put to it.
pub struct Peer {
    pub name: &'static str,
    /// The command, before the name of its script.
    command: &'static str,
    fewest_rules: usize,
    most_rules: usize,
    manner: Manner,
    /// Whether the peer and the document must agree on this class; if not, the differences are only counted.
    must_agree: bool,
}

/// A marker in the place of an empty word is taken out of the results again.
const MARKER: &str = "Z";

/// Both contexts in the original tape, and an empty word written as nothing or as the marker.
const WITH_NOTHING: Manner = Manner { contexts: "||", empty_word: "0" };
const WITH_MARKER: Manner = Manner { contexts: "||", empty_word: MARKER };
/// The left context in the output.
const IN_OUTPUT: Manner = Manner { contexts: "//", empty_word: "0" };

const FOMA: &str = "foma -q -f";
const HFST: &str = "hfst-xfst -s -F";

const fn peer(
    name: &'static str,
    command: &'static str,
    rules: (usize, usize),
    manner: Manner,
    must_agree: bool,
) -> Peer {
    Peer { name, command, fewest_rules: rules.0, most_rules: rules.1, manner, must_agree }
}

/// The first two must agree; the others lie beyond the class and show where it ends.
pub const PEERS: [Peer; 5] = [
    peer("foma", FOMA, (1, 1), WITH_NOTHING, true),
    peer("hfst", HFST, (1, 4), WITH_MARKER, true),
    peer("foma-several", FOMA, (2, 4), WITH_NOTHING, false),
    peer("foma-output", FOMA, (1, 1), IN_OUTPUT, false),
    peer("hfst-empty", HFST, (1, 1), WITH_NOTHING, false),
];

/// Books put to one run of the peer.
const BOOKS_A_RUN: u64 = 20;
/// Differences printed; all are counted.
const MOST_PRINTED: u64 = 5;

/// Tapes compared, by what came of them.
#[derive(Default)]
struct Tally {
    passed: u64,
    failed: u64,
    /// Tapes that the book changes, and tapes with more than one result because rules tie.
    changed: u64,
    tied: u64,
    /// Failed, but the document's output is one of the peer's results.
    among: u64,
}

/// Compares `count` books on eight tapes each; false if the peer must agree and does not.
pub fn compare(peer: &Peer, seed: u64, count: u64) -> io::Result<bool> {
    println!("seed {seed}, {count} books of eight tapes, peer: {}", peer.name);
    let mut tally = Tally::default();
    for first in (0..count).step_by(BOOKS_A_RUN as usize) {
        let numbers = first..count.min(first + BOOKS_A_RUN);
        let cases: Vec<Case> = numbers.map(|number| peer.case(&mut Chance::of(seed, number))).collect();
        let printed = peer.run(&cases)?;
        let mut results = printed.split(MARK).skip(1);
        for (case, tape) in cases.iter().flat_map(|case| case.tapes.iter().map(move |tape| (case, tape))) {
            tally.add(case, tape, results.next().unwrap_or("no result"));
        }
    }
    println!("{} tapes changed, {} with ties", tally.changed, tally.tied);
    if tally.failed > 0 {
        println!("the document's output is among the results of {} of the {} that differ", tally.among, tally.failed);
    }
    println!("{} passed, {} failed", tally.passed, tally.failed);
    Ok(tally.failed == 0 || !peer.must_agree)
}

impl Peer {
    fn case(&self, chance: &mut Chance) -> Case {
        Case::of(chance.between(self.fewest_rules, self.most_rules), chance)
    }

    /// What the peer prints for these books; it wants its script in a file.
    fn run(&self, cases: &[Case]) -> io::Result<String> {
        let file = std::env::temp_dir().join(format!("second-peer-{}", std::process::id()));
        let script: String = cases.iter().map(|case| case.script(&self.manner)).collect();
        std::fs::write(&file, script)?;
        let printed = Command::new(&format!("{} {}", self.command, file.display())).run(Vec::new());
        std::fs::remove_file(&file)?;
        Ok(String::from_utf8_lossy(&printed?.0).replace(MARKER, ""))
    }
}

impl Tally {
    fn add(&mut self, case: &Case, tape: &[u8], printed: &str) {
        let book = book::read(&case.book(), Reading::TRUE).expect("a valid book");
        let expected = outputs(&book, tape);
        let output = expected[0].clone();
        let (expected, results) = (in_order(expected), in_order(printed.lines().map(str::to_string).collect()));
        let tape: String = tape.iter().map(|symbol| written(*symbol)).collect();
        self.changed += u64::from(output != tape);
        self.tied += u64::from(expected.len() > 1);
        if results == expected {
            self.passed += 1;
            return;
        }
        self.failed += 1;
        self.among += u64::from(results.contains(&output));
        if self.failed <= MOST_PRINTED {
            println!("{}\n  tape {tape}, expected {expected:?}, got {results:?}", case.expression(&WITH_NOTHING));
        }
    }
}

/// Each result once.
fn in_order(mut results: Vec<String>) -> Vec<String> {
    results.sort();
    results.dedup();
    results
}
