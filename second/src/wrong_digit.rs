//! Wrong readings of the program's digits: document 02, No. 6, "The program prints and reads 0 to 9 and a to v, and
//! another character counts as 32." The true ones are in `digits` and `program`.

use crate::digits;
use crate::program::OTHER;
use crate::reading::{Reading, Wrong};
use crate::wrong_symbol::{folded, HIGHEST_OLD, OLD_SYMBOLS};

/// The digits 0 to 9 and a to z without i, l, o and u, which look like others: another way to write thirty-two symbols.
const UNLIKE: &[u8] = b"0123456789abcdefghjkmnpqrstvwxyz";

/// The symbol that a character counts as by the wrong reading that is put in, if that is one of these.
pub fn read_instead(character: u8, reading: Reading) -> Option<u8> {
    let truly = digits::read(character);
    let old = truly.filter(|symbol| *symbol <= HIGHEST_OLD);
    let small = digits::read(character.to_ascii_lowercase());
    let is_old_capital = (b'A'..=b'F').contains(&character);
    let unlike = UNLIKE.iter().position(|digit| *digit == character).map(|symbol| symbol as u8);
    let with = |one: u8, symbol: u8| if character == one { Some(symbol) } else { truly };
    let old_other = OLD_SYMBOLS as u8;
    let instead = [
        (Wrong::SixteenSymbols, old.unwrap_or(old_other)),
        (Wrong::OtherIsSixteen, truly.unwrap_or(old_other)),
        (Wrong::DigitsToF, old.unwrap_or(OTHER)),
        (Wrong::DigitsFolded, truly.map_or(OTHER, folded)),
        (Wrong::DigitsUnlike, unlike.unwrap_or(OTHER)),
        (Wrong::CapitalsRead, small.unwrap_or(OTHER)),
        (Wrong::NewCapitalsRead, small.filter(|_| !is_old_capital).unwrap_or(OTHER)),
        (Wrong::AfterNineRead, with(b'9' + 1, 10).unwrap_or(OTHER)),
        (Wrong::BeforeARead, with(b'a' - 1, 9).unwrap_or(OTHER)),
    ];
    instead.into_iter().find(|(wrong, _)| reading.is(*wrong)).map(|(_, symbol)| symbol)
}

/// What is printed for a symbol, unless it is a bad one, by the wrong reading that is put in, if that is one of these.
pub fn printed_instead(symbol: u8, reading: Reading) -> Option<String> {
    let truly = digits::of(symbol).filter(|_| !reading.is_true())?;
    let capital = truly.to_ascii_uppercase();
    let of_new = |printed: char| if symbol <= HIGHEST_OLD { truly } else { printed };
    let instead = [
        (Wrong::PrintedCapital, capital.to_string()),
        (Wrong::NewPrintedCapital, of_new(capital).to_string()),
        (Wrong::PrintedInHex, format!("{symbol:x}")),
        (Wrong::PrintedFolded, digits::shown(&[folded(symbol)])),
        (Wrong::PrintedLate, of_new((truly as u8 + 1) as char).to_string()),
        (Wrong::PrintedUnlike, char::from(UNLIKE[symbol as usize]).to_string()),
    ];
    instead.into_iter().find(|(wrong, _)| reading.is(*wrong)).map(|(_, printed)| printed)
}
