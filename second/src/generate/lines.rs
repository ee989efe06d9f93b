//! Inputs for the program: lines at random, and the ways an input can end.

use super::alphabet::Alphabet;
use crate::account::WORDS_A_LINE;
use crate::admission::LONGEST_TAPE;
use crate::chance::Chance;
use crate::digits;
use crate::program::ACCOUNT_WORDS;

/// The lines that the program's account has room for: 1,000.
const ACCOUNT_LINES: usize = ACCOUNT_WORDS / WORDS_A_LINE;

/// Inputs with `count` tapes in all: small ones for the ways an input can end, then one with all the rest.
pub fn inputs(seed: u64, count: usize) -> Vec<Vec<u8>> {
    let small: [(&str, usize); 8] =
        [("", 0), ("\n", 1), ("5", 1), ("12400", 1), ("2400\n", 1), ("\n\n", 2), ("2\n\n", 2), ("w", 1)];
    let mut inputs = Vec::new();
    let mut left = count;
    for (input, tapes) in small.into_iter().filter(|_| count >= 20) {
        inputs.push(input.as_bytes().to_vec());
        left -= tapes;
    }
    let mut chance = Chance::of(seed, u64::MAX);
    inputs.push(input(&mut chance, left));
    inputs
}

/// So many tapes, each a line; the last one may do without its newline unless it is empty.
fn input(chance: &mut Chance, tapes: usize) -> Vec<u8> {
    let lines: Vec<Vec<u8>> = (0..tapes).map(|_| line(chance)).collect();
    let mut input = lines.join(&b'\n');
    if let Some(last) = lines.last() {
        if last.is_empty() || chance.one_in(2) {
            input.push(b'\n');
        }
    }
    input
}

fn line(chance: &mut Chance) -> Vec<u8> {
    let mut line = match chance.weighted(&[(400, 0), (4, 1), (4, 2), (3, 3), (1, 4)]) {
        0 => touches(chance),
        // One candidate for each "245", two for each "12400": as many as there is room for, a few fewer or more.
        1 => repeated(b"245", 3 * chance.between(ACCOUNT_LINES - 2, ACCOUNT_LINES + 2)),
        2 => repeated(b"12400", chance.between(5 * ACCOUNT_LINES / 2 - 10, 5 * ACCOUNT_LINES / 2 + 10)),
        3 => repeated(b"2334", chance.between(LONGEST_TAPE - 1, LONGEST_TAPE + 2)),
        _ => repeated(b"0", chance.between(LONGEST_TAPE, 20 * LONGEST_TAPE)),
    };
    if chance.one_in(8) && !line.is_empty() {
        let at = chance.below(line.len());
        line[at] = other(chance);
    }
    if chance.one_in(25) {
        line.push(b'\r');
    }
    line
}

/// Press, hold, release and what can follow, in an order that often makes sense.
fn touches(chance: &mut Chance) -> Vec<u8> {
    let pieces: [&[u8]; 12] = [b"1", b"2", b"3", b"4", b"5", b"0", b"00", b"24", b"23", b"124", b"245", b"2400"];
    let mut line = Vec::new();
    for _ in 0..chance.weighted(&[(1, 0), (3, 2), (6, 6), (4, 15), (1, 60)]) {
        line.extend(chance.pick(&pieces));
        if chance.one_in(12) {
            line.push(digit(chance));
        }
    }
    line
}

fn repeated(pattern: &[u8], length: usize) -> Vec<u8> {
    pattern.iter().copied().cycle().take(length).collect()
}

/// The digit of any symbol, one at an edge more often.
fn digit(chance: &mut Chance) -> u8 {
    digits::of(Alphabet::all().any(chance)).expect("a symbol") as u8
}

/// Any byte but a newline and the digits; often a character just beyond these, or a capital.
fn other(chance: &mut Chance) -> u8 {
    loop {
        let beyond = chance.pick(b"/:`wxz@[AFGVW \r\t\0-");
        let byte = if chance.one_in(3) { chance.byte() } else { beyond };
        if byte != b'\n' && digits::read(byte).is_none() {
            return byte;
        }
    }
}
