//! `second serve` and `second pads`: the reference itself in the place of the door and of the program.

use std::io::{self, BufReader, BufWriter, Read, Write};

use crate::call::{Call, Request};
use crate::operations;
use crate::program;
use crate::reading::Reading;

/// The one byte that answers what is no request; the run ends with it.
const REFUSED: u8 = 255;

/// Answers requests until the input ends.
pub fn serve(reading: Reading) -> io::Result<()> {
    let mut input = BufReader::new(io::stdin().lock());
    let mut output = BufWriter::new(io::stdout().lock());
    loop {
        match Call::read(&mut input)? {
            Request::Call(call) => output.write_all(&operations::answer(&call, reading).to_bytes())?,
            Request::Ended => return output.flush(),
            Request::Refused => {
                output.write_all(&[REFUSED])?;
                return output.flush();
            }
        }
        output.flush()?;
    }
}

pub fn pads(reading: Reading) -> io::Result<()> {
    let mut input = Vec::new();
    io::stdin().lock().read_to_end(&mut input)?;
    io::stdout().lock().write_all(program::run(&input, reading).as_bytes())
}
