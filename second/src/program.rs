//! The program: document 01, "House book and program", and document 02, No. 6.

use crate::account::{FIVE_WORDS, WORDS_A_LINE};
use crate::admission::LONGEST_TAPE;
use crate::answer::Answer;
use crate::book::HIGHEST_SYMBOL;
use crate::call::{Call, Lengths, Operation};
use crate::digits;
use crate::house;
use crate::operations;
use crate::reading::{Reading, Wrong};
use crate::workspace;
use crate::wrong_digit::{printed_instead, read_instead};

/// "It gives the account 6,000 words."
pub const ACCOUNT_WORDS: usize = 6000;
/// "another character counts as symbol 16". Document 02, No. 6: "another character counts as 32".
pub const OTHER: u8 = HIGHEST_SYMBOL + 1;

/// All that the program prints for an input.
pub fn run(input: &[u8], reading: Reading) -> String {
    let book = house::book();
    let mut printed = String::new();
    for line in lines(input, reading) {
        let tape = tape(line, reading);
        let (output, account) = calls(&book, &tape, reading);
        printed += &tape_printed(&output, &account, reading);
        if reading.is(Wrong::RefusalEndsRun) && output.reply != 0 {
            break;
        }
    }
    printed
}

/// "one tape a line; a last line needs no newline"
pub fn lines(input: &[u8], reading: Reading) -> Vec<&[u8]> {
    let mut lines: Vec<&[u8]> = input.split(|byte| *byte == b'\n').collect();
    let last_is_empty = lines.last().is_some_and(|last| last.is_empty());
    let drop_unended = reading.is(Wrong::LastLineNeedsNewline);
    if (last_is_empty && !reading.is(Wrong::LastNewlineAddsTape)) || drop_unended {
        lines.pop();
    }
    if reading.is(Wrong::EmptyLineSkipped) {
        lines.retain(|line| !line.is_empty());
    }
    lines
}

/// "lines of hex digits (0 to 9, a to f)". Document 02, No. 6: "The program prints and reads 0 to 9 and a to v".
fn tape(line: &[u8], reading: Reading) -> Vec<u8> {
    let line = match line {
        [front @ .., b'\r'] if reading.is(Wrong::ReturnDropped) => front,
        _ => line,
    };
    let symbols = line.iter().map(|character| symbol(*character, reading));
    symbols.filter(|symbol| *symbol != OTHER || !reading.is(Wrong::OtherDropped)).collect()
}

fn symbol(character: u8, reading: Reading) -> u8 {
    read_instead(character, reading).unwrap_or(digits::read(character).unwrap_or(OTHER))
}

/// The REWRITE and the ACCOUNT of one tape.
fn calls(book: &[u8], tape: &[u8], reading: Reading) -> (Answer, Answer) {
    let account = reading.value(ACCOUNT_WORDS, Wrong::AccountOf5999, ACCOUNT_WORDS - 1);
    let account = reading.value(account, Wrong::AccountOf6006, ACCOUNT_WORDS + WORDS_A_LINE);
    let account = reading.value(account, Wrong::AccountOf7200, ACCOUNT_WORDS / FIVE_WORDS * WORDS_A_LINE);
    let mut call = Call::new(Operation::Rewrite);
    call.book = book.to_vec();
    call.tape = tape.to_vec();
    call.lengths = Lengths {
        rows: workspace::ROW_BYTES,
        sets: workspace::SETS,
        scratch: LONGEST_TAPE + 1,
        // No house word is longer than a stretch it replaces.
        out: LONGEST_TAPE,
        origins: LONGEST_TAPE,
        lines: account,
    };
    let output = operations::answer(&call, reading);
    call.operation = Operation::Account;
    (output, operations::answer(&call, reading))
}

/// "A refusal prints X, number, place, and ends that tape; for a short account it follows W and O."
fn tape_printed(output: &Answer, account: &Answer, reading: Reading) -> String {
    if output.reply != 0 {
        return refusal_printed(output);
    }
    let printed = output_printed(output, reading);
    if account.reply != 0 {
        if reading.is(Wrong::ShortAccountAlone) {
            return refusal_printed(account);
        }
        return printed + &refusal_printed(account);
    }
    let lines = account.lent.lines.chunks_exact(WORDS_A_LINE).take(account.counts[0] as usize);
    printed + &lines.map(|line| line_printed(line, reading)).collect::<String>()
}

/// "a C line per candidate"; document 02, No. 1: "SHOW and the printed C line follow."
fn line_printed(line: &[u16], reading: Reading) -> String {
    let words = reading.value(WORDS_A_LINE, Wrong::FiveWordsPrinted, FIVE_WORDS);
    format!("C {}\n", spaced(&line[..words]))
}

fn refusal_printed(answer: &Answer) -> String {
    format!("X {} {}\n", answer.reply, answer.place)
}

/// "W with output length, stretches taken and symbols; O with origins"; "An empty output prints as one minus sign,
/// on W and on O."
fn output_printed(output: &Answer, reading: Reading) -> String {
    let [length, taken, ..] = output.counts;
    let minus = reading.value("-", Wrong::EmptyOutputBlank, "");
    let symbols: String = output.lent.out[..length as usize].iter().map(|symbol| printed(*symbol, reading)).collect();
    let origins = spaced(&output.lent.origins[..length as usize]);
    let or_minus = |text: String| if length == 0 { minus.to_string() } else { text };
    format!("W {length} {taken} {}\nO {}\n", or_minus(symbols), or_minus(origins))
}

/// One digit; only a wrong reading comes to print a bad symbol.
fn printed(symbol: u8, reading: Reading) -> String {
    printed_instead(symbol, reading).unwrap_or_else(|| digits::shown(&[symbol]))
}

fn spaced(words: &[u16]) -> String {
    words.iter().map(u16::to_string).collect::<Vec<_>>().join(" ")
}
