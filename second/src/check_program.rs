//! `second program`: random lines through the program, compared with the reference.

use std::io;

use crate::command::Command;
use crate::generate::lines::inputs;
use crate::hex;
use crate::program;
use crate::reading::Reading;
use crate::shrink::parts;

/// Compares the whole output for `count` tapes; true if all agree.
pub fn check_program(pads: &Command, seed: u64, count: usize) -> io::Result<bool> {
    println!("seed {seed}, {count} tapes, program: {}", pads.line());
    let mut passed = 0;
    for input in inputs(seed, count) {
        if let Some(words) = difference(pads, &input)? {
            println!("an input of {} bytes differs: {words}", input.len());
            report_smallest(pads, input)?;
            println!("{passed} passed, 1 failed");
            return Ok(false);
        }
        passed += program::lines(&input, Reading::TRUE).len();
    }
    println!("{passed} passed, 0 failed");
    Ok(passed == count)
}

/// The first line printed otherwise than expected, in words.
fn difference(pads: &Command, input: &[u8]) -> io::Result<Option<String>> {
    let running = pads.start(input.to_vec())?;
    let expected = program::run(input, Reading::TRUE);
    let (printed, status) = running.finish()?;
    if printed == expected.as_bytes() {
        return Ok((!status.success()).then(|| format!("it ended with {status}")));
    }
    let printed = String::from_utf8_lossy(&printed).into_owned();
    let (mine, theirs): (Vec<&str>, Vec<&str>) = (expected.split('\n').collect(), printed.split('\n').collect());
    let at = (0..mine.len().max(theirs.len())).find(|at| mine.get(*at) != theirs.get(*at)).unwrap_or(0);
    Ok(Some(format!("line {}: expected {:?}, got {:?}", at + 1, mine.get(at), theirs.get(at))))
}

fn report_smallest(pads: &Command, input: Vec<u8>) -> io::Result<()> {
    let mut smallest = input;
    while let Some(next) = first_failing(pads, smaller(&smallest))? {
        smallest = next;
    }
    let words = difference(pads, &smallest)?.unwrap_or_default();
    println!("smallest input found: {:?}\n{words}", String::from_utf8_lossy(&smallest));
    println!("repeat it with: second tapes --pads \"{}\" {}", pads.line(), hex::of(&smallest));
    Ok(())
}

fn first_failing(pads: &Command, inputs: Vec<Vec<u8>>) -> io::Result<Option<Vec<u8>>> {
    for input in inputs {
        if difference(pads, &input)?.is_some() {
            return Ok(Some(input));
        }
    }
    Ok(None)
}

/// The input without some of its lines, or if it has few lines without some of its bytes, largest parts first.
fn smaller(input: &[u8]) -> Vec<Vec<u8>> {
    let lines: Vec<&[u8]> = input.split_inclusive(|byte| *byte == b'\n').collect();
    let without_lines = |(from, to): (usize, usize)| [lines[..from].concat(), lines[to..].concat()].concat();
    let without_bytes = |(from, to): (usize, usize)| [&input[..from], &input[to..]].concat();
    let mut smaller: Vec<Vec<u8>> = parts(lines.len()).into_iter().map(without_lines).collect();
    if lines.len() <= 4 {
        smaller.extend(parts(input.len()).into_iter().map(without_bytes));
    }
    smaller
}

/// `second tapes`: one input again, with both outputs.
pub fn tapes(pads: &Command, input: &[u8]) -> io::Result<bool> {
    let (printed, _) = pads.run(input.to_vec())?;
    println!("input: {:?}", String::from_utf8_lossy(input));
    println!("expected:\n{}printed:\n{}", program::run(input, Reading::TRUE), String::from_utf8_lossy(&printed));
    let failed = difference(pads, input)?.map(|words| println!("differs: {words}")).is_some();
    println!("{} passed, {} failed", u8::from(!failed), u8::from(failed));
    Ok(!failed)
}
