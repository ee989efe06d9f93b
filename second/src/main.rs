//! The commands of the second program.

use std::io;
use std::process::ExitCode;
use std::time::{SystemTime, UNIX_EPOCH};

use second::call::{Call, Request};
use second::check;
use second::check_program;
use second::command::Command;
use second::generate::calls::call;
use second::hex;
use second::openfst::comparison as openfst;
use second::peer::comparison::{compare, PEERS};
use second::races::case::Case;
use second::races::comparison as races;
use second::reading::{Reading, Wrong};
use second::serve;

const USAGE: &str = "\
second check SEED COUNT [--door \"CMD ARGS\"]     compare COUNT calls with the door (bin/door)
second program SEED COUNT [--pads \"CMD ARGS\"]   compare COUNT tapes with the program (bin/run pads)
second call SEED NUMBER [--door \"CMD ARGS\"]     repeat one call of a run
second one HEX [--door \"CMD ARGS\"]              repeat one call, given as the bytes of its request
second tapes HEX [--pads \"CMD ARGS\"]            repeat one input of the program, given as its bytes
second peer NAME SEED COUNT                     compare COUNT books with foma or hfst (the script peers does it)
second openfst SEED COUNT [--door \"CMD ARGS\"]   compare COUNT texts of OpenFst with the door (the script openfst does it)
second races SEED COUNT [--door \"CMD ARGS\"]     compare COUNT joined tapes with their two tapes alone, and all with the reference
second race HEX [--door \"CMD ARGS\"]             repeat one joined tape, given as the bytes of its six requests
second serve [--wrong NAME]                     answer requests as the door does
second pads [--wrong NAME]                      behave as the program does
second wrong                                    list the wrong readings
SEED is a number, or the word fresh.";

/// The words of the command line and the values of its options.
struct Arguments {
    words: Vec<String>,
    door: Command,
    pads: Command,
    reading: Reading,
}

fn main() -> ExitCode {
    match arguments().and_then(|arguments| run(&arguments)) {
        Ok(true) => ExitCode::SUCCESS,
        Ok(false) => ExitCode::FAILURE,
        Err(error) => {
            eprintln!("second: {error}");
            ExitCode::from(2)
        }
    }
}

fn arguments() -> io::Result<Arguments> {
    let mut arguments = Arguments {
        words: Vec::new(),
        door: Command::new("bin/door"),
        pads: Command::new("bin/run pads"),
        reading: Reading::TRUE,
    };
    let mut given = std::env::args().skip(1);
    while let Some(word) = given.next() {
        let mut value = || given.next().ok_or_else(|| io::Error::other(format!("{word} needs a value")));
        match word.as_str() {
            "--door" => arguments.door = Command::new(&value()?),
            "--pads" => arguments.pads = Command::new(&value()?),
            "--wrong" => arguments.reading = wrong_reading(&value()?)?,
            _ => arguments.words.push(word),
        }
    }
    Ok(arguments)
}

fn wrong_reading(name: &str) -> io::Result<Reading> {
    Reading::named(name).ok_or_else(|| io::Error::other(format!("no wrong reading is called {name}")))
}

/// True if everything compared agreed.
fn run(arguments: &Arguments) -> io::Result<bool> {
    let words: Vec<&str> = arguments.words.iter().map(String::as_str).collect();
    match words[..] {
        ["check", seed, count] => check::check(&arguments.door, seed_of(seed)?, number(count)?),
        ["program", seed, count] => {
            check_program::check_program(&arguments.pads, seed_of(seed)?, number(count)? as usize)
        }
        ["call", seed, number] => check::one(&arguments.door, &call(seed_of(seed)?, self::number(number)?)),
        ["one", digits] => check::one(&arguments.door, &request(&bytes(digits)?)?),
        ["tapes", digits] => check_program::tapes(&arguments.pads, &bytes(digits)?),
        ["tapes"] => check_program::tapes(&arguments.pads, &[]),
        ["serve"] => serve::serve(arguments.reading).map(|()| true),
        ["pads"] => serve::pads(arguments.reading).map(|()| true),
        ["peer", name, seed, count] => {
            let peer = PEERS.iter().find(|peer| peer.name == name);
            let peer = peer.ok_or_else(|| io::Error::other(format!("no peer is called {name}")))?;
            compare(peer, seed_of(seed)?, number(count)?)
        }
        ["openfst", seed, count] => openfst::compare(&arguments.door, seed_of(seed)?, number(count)?),
        ["races", seed, count] => races::compare(&arguments.door, seed_of(seed)?, number(count)?),
        ["race", digits] => races::one(&arguments.door, &Case::read(&bytes(digits)?)?),
        ["wrong"] => {
            Wrong::ALL.iter().for_each(|wrong| println!("{:26} {}", wrong.name(), wrong.says()));
            Ok(true)
        }
        _ => Err(io::Error::other(format!("say one of\n{USAGE}"))),
    }
}

fn number(word: &str) -> io::Result<u64> {
    word.parse().map_err(|_| io::Error::other(format!("{word} is not a number")))
}

fn bytes(digits: &str) -> io::Result<Vec<u8>> {
    hex::read(digits).ok_or_else(|| io::Error::other("an even number of hex digits is wanted"))
}

fn request(bytes: &[u8]) -> io::Result<Call> {
    match Call::read(&mut &bytes[..])? {
        Request::Call(call) => Ok(*call),
        _ => Err(io::Error::other("these bytes are no request")),
    }
}

/// A fresh seed is the time; it is printed with the run, so that the run can be repeated.
fn seed_of(word: &str) -> io::Result<u64> {
    if word == "fresh" {
        let since = SystemTime::now().duration_since(UNIX_EPOCH).map_err(io::Error::other)?;
        return Ok(since.as_nanos() as u64);
    }
    number(word)
}
