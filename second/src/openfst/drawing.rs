//! Acceptors at random, as OpenFst's own commands make and print them.

use std::io;

use crate::chance::Chance;
use crate::command::Command;
use crate::generate::alphabet::Alphabet;
use crate::generate::texts::{acceptor, drawn, written, Size};
use crate::text::Said;

/// Which texts come of a drawing.
#[derive(Clone, Copy, PartialEq, Eq)]
enum Manner {
    /// Arcs of three fields and final states of one, unless a state leads nowhere: OpenFst prints it with a weight.
    Plain,
    /// Some lines have a weight.
    Weighted,
    /// Every line has a second label or a weight.
    Wide,
}

/// An acceptor, and the commands that change and print it.
pub struct Drawing {
    /// What OpenFst compiles.
    pub text: Vec<u8>,
    said: Vec<Said>,
    commands: &'static [&'static str],
    print: &'static str,
}

/// A drawing as OpenFst has it.
pub struct Printed {
    /// Its own file.
    pub compiled: Vec<u8>,
    /// Its text.
    pub text: String,
}

const COMPILE: &str = "fstcompile --acceptor";
const PRINT: &str = "fstprint --acceptor";

/// Those after which no state leads nowhere and no arc has the empty word; then as drawn; then with arcs of the empty
/// word.
const CHANGES: [(usize, &[&str]); 9] = [
    (6, &["fstconnect"]),
    (2, &["fstconnect", "fstarcsort"]),
    (4, &["fstdeterminize", "fstconnect"]),
    (3, &["fstdeterminize", "fstminimize"]),
    (3, &["fstreverse", "fstrmepsilon"]),
    (3, &["fstclosure", "fstrmepsilon"]),
    (3, &[]),
    (2, &["fstconnect", "fstclosure"]),
    (2, &["fstreverse"]),
];

impl Drawing {
    pub fn of(chance: &mut Chance) -> Drawing {
        let alphabet = Alphabet::of(chance);
        let (small, arcs) = (Size::small(chance), chance.between(8, 120));
        let large = Size { states: chance.between(7, 80), arcs };
        let size = chance.weighted(&[(6, small), (1, large)]);
        // In another order than drawn the start may reach few states.
        let said = if chance.one_in(4) { acceptor(size, &alphabet, chance) } else { drawn(size, &alphabet, chance) };
        let manner = chance.weighted(&[(6, Manner::Plain), (1, Manner::Weighted), (1, Manner::Wide)]);
        let mut lines = written(&said, chance);
        // Commands that look at weights might not end.
        let commands = if manner == Manner::Weighted { &["fstconnect"][..] } else { chance.weighted(&CHANGES) };
        if manner == Manner::Weighted {
            lines.iter_mut().for_each(|line| weigh(line, chance));
        }
        let wide = ["fstprint", "fstprint --acceptor --show_weight_one"];
        let print = if manner == Manner::Wide { chance.pick(&wide) } else { PRINT };
        Drawing { text: lines.concat(), said, commands, print }
    }

    /// What OpenFst makes of it.
    pub fn printed(&self) -> io::Result<Printed> {
        let mut compiled = run(COMPILE, self.text.clone())?;
        for command in self.commands {
            compiled = run(command, compiled)?;
        }
        let text = String::from_utf8(run(self.print, compiled.clone())?).map_err(io::Error::other)?;
        Ok(Printed { compiled, text })
    }

    /// The commands in words.
    pub fn in_words(&self) -> String {
        let commands = [&[COMPILE], self.commands, &[self.print]].concat();
        format!("{} | {}", self.text.escape_ascii(), commands.join(" | "))
    }

    /// Tapes whose stretches are the words tried: one with every word of three symbols over a few, and some that are led
    /// through the drawing.
    pub fn tapes(&self, chance: &mut Chance) -> Vec<Vec<u8>> {
        let mut symbols: Vec<u8> =
            self.said.iter().filter_map(|said| said.label()).map(|label| label as u8 - 1).collect();
        symbols.push(Alphabet::all().any(chance));
        symbols.sort_unstable();
        symbols.dedup();
        chance.shuffle(&mut symbols);
        symbols.truncate(3);
        let led = (0..3).map(|_| self.led(&symbols, chance)).collect::<Vec<_>>();
        [vec![all_of_three(&symbols)], led].concat()
    }

    fn led(&self, symbols: &[u8], chance: &mut Chance) -> Vec<u8> {
        let length = chance.between(0, 14);
        let mut tape = Vec::new();
        let start = self.said.first().map(|said| said.states()[0]);
        let mut state = start;
        while tape.len() < length {
            let leaves = |said: &&Said| said.label().is_some() && Some(said.states()[0]) == state;
            let arcs: Vec<Said> = self.said.iter().filter(leaves).copied().collect();
            let arc = (!arcs.is_empty() && !chance.one_in(8)).then(|| chance.pick(&arcs));
            state = arc.map_or(start, |arc| Some(arc.states()[1]));
            tape.push(arc.and_then(Said::label).map_or_else(|| chance.pick(symbols), |label| label as u8 - 1));
        }
        tape
    }
}

/// A weight behind one line in three; OpenFst does not print the weight 0.
fn weigh(line: &mut Vec<u8>, chance: &mut Chance) {
    if chance.one_in(3) {
        line.pop();
        line.extend(chance.pick(&["\t0.5\n", "\t2\n", "\t0\n", "\t-1\n"]).bytes());
    }
}

/// A tape on which every word of three of these symbols stands, each new symbol the last that gives a new word.
pub fn all_of_three(symbols: &[u8]) -> Vec<u8> {
    let mut tape = vec![symbols[0]; 2];
    let is_new = |tape: &[u8], symbol: u8| {
        let word = [&tape[tape.len() - 2..], &[symbol]].concat();
        !tape.windows(3).any(|window| window == word)
    };
    while let Some(symbol) = symbols.iter().rev().find(|symbol| is_new(&tape, **symbol)) {
        tape.push(*symbol);
    }
    tape
}

/// What one of OpenFst's commands makes of its input.
pub fn run(command: &str, input: Vec<u8>) -> io::Result<Vec<u8>> {
    let (output, status) = Command::new(command).run(input)?;
    match status.success() {
        true => Ok(output),
        false => Err(io::Error::other(format!("{command} ended with {status}"))),
    }
}

/// The words of a list that a drawing accepts, as a text: the list as an acceptor, intersected with the drawing.
pub fn intersected(list: String, compiled: &[u8]) -> io::Result<String> {
    let file = std::env::temp_dir().join(format!("second-openfst-{}", std::process::id()));
    std::fs::write(&file, compiled)?;
    let list = run(COMPILE, list.into_bytes())?;
    let both = run(&format!("fstintersect - {}", file.display()), list);
    std::fs::remove_file(&file)?;
    let printed = run(PRINT, run("fstdeterminize", both?)?)?;
    String::from_utf8(printed).map_err(io::Error::other)
}
