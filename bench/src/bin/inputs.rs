//! inputs DIR [SYMBOLS]: the inputs that stack.c and since.c measure each operation on. DIR/names has a name a line; NAME.book and NAME.tape are the
//! bytes. Books and tapes have that many symbols, for an earlier library that has fewer; where no number is said, all. A program of its own, so that
//! it needs neither the library nor its peers.

use bench::alphabet::Alphabet;
use bench::answer::{SYMBOLS, TAPE};
use bench::cases::{Cases, SEED};
use bench::chance::Chance;
use std::fs::write;
use std::path::PathBuf;

/// The symbols of a short tape, for all stretches of which stack.c has lines, also the empty ones; and the bytes of the house book that is cut.
const FEW: usize = 64;
const CUT: usize = 100;

fn main() -> std::io::Result<()> {
    let mut words = std::env::args().skip(1);
    let folder = PathBuf::from(words.next().expect("inputs DIR"));
    let alphabet =
        words.next().map_or(Alphabet::WHOLE, |symbols| Alphabet(symbols.parse().expect("a number of symbols")));
    let cases = Cases::new(alphabet, &mut Chance::new(SEED));
    let few = &cases.random[0][..FEW];
    let inputs: [(&str, &[u8], &[u8]); 15] = [
        ("house book, pool-like tape", &cases.house, &cases.pool[0]),
        ("house book, one long stretch", &cases.house, &cases.one_stretch[0]),
        ("house book, no candidate", &cases.house, &cases.no_candidate[0]),
        ("turn rule and lap marks", &cases.lap, &cases.pool[0]),
        ("eight symbols put in everywhere", &cases.places, &cases.random[0]),
        ("dense book", &cases.dense, &cases.random[0]),
        ("256 sets a side", &cases.full, &cases.random[0]),
        ("64 states, 512 arcs", &cases.largest, &cases.random[0]),
        ("every stretch a candidate", &cases.every, few),
        ("every stretch, empty ones too", &cases.most, few),
        ("no two focus sets alike", &cases.alike, few),
        ("a tape that is too long", &cases.house, &[0; TAPE + 1]),
        ("a symbol that is none", &cases.house, &[SYMBOLS as u8; FEW]),
        ("a cut book", &cases.house[..CUT], few),
        ("the empty book", &[], &[]),
    ];
    for (name, book, tape) in inputs {
        write(folder.join(format!("{name}.book")), book)?;
        write(folder.join(format!("{name}.tape")), tape)?;
    }
    write(folder.join("names"), inputs.map(|(name, ..)| format!("{name}\n")).concat())
}
