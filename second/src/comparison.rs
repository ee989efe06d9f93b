//! Calls answered by the reference and by a door, compared element by element.

use std::io;
use std::process::ExitStatus;

use crate::answer::Answer;
use crate::call::Call;
use crate::command::Command;
use crate::operations;
use crate::reading::Reading;

/// The first call of a list on which the door differs, and how.
pub struct Difference {
    pub at: usize,
    pub words: String,
}

/// What came of a list of calls.
pub struct Comparison {
    pub difference: Option<Difference>,
    /// The reference's answers, as far as they were needed.
    pub expected: Vec<Answer>,
}

/// Sends all the calls to one run of the door and works out the reference's answers meanwhile.
pub fn compare(door: &Command, calls: &[Call]) -> io::Result<Comparison> {
    let running = door.start(calls.iter().flat_map(Call::to_bytes).collect())?;
    let expected: Vec<Answer> = calls.iter().map(|call| operations::answer(call, Reading::TRUE)).collect();
    let (answers, status) = running.finish()?;
    let difference = first_difference(calls, &expected, &answers, status);
    Ok(Comparison { difference, expected })
}

/// The door's answers to these calls.
pub fn answers(door: &Command, calls: &[Call]) -> io::Result<Vec<Answer>> {
    let (answers, status) = door.run(calls.iter().flat_map(Call::to_bytes).collect())?;
    let mut rest = &answers[..];
    let answers = calls.iter().map(|call| Answer::read(call, &mut rest)).collect::<io::Result<Vec<_>>>()?;
    match status.success() && rest.is_empty() {
        true => Ok(answers),
        false => Err(io::Error::other(format!("the door ended with {status}, {} bytes after its answers", rest.len()))),
    }
}

fn first_difference(calls: &[Call], expected: &[Answer], answers: &[u8], status: ExitStatus) -> Option<Difference> {
    let mut rest = answers;
    for (at, (call, expected)) in calls.iter().zip(expected).enumerate() {
        let words = match Answer::read(call, &mut rest) {
            Ok(answer) => expected.difference(&answer),
            Err(error) => Some(format!("no whole answer ({error}; the door ended with {status})")),
        };
        if let Some(words) = words {
            return Some(Difference { at, words });
        }
    }
    let last = calls.len().checked_sub(1)?;
    if !rest.is_empty() {
        return Some(Difference { at: last, words: format!("{} bytes follow the last answer", rest.len()) });
    }
    (!status.success()).then(|| Difference { at: last, words: format!("the door ended with {status}") })
}
