//! Runs: ways through the states of a book along its arcs, an arc for each symbol of a word.

use crate::book::Book;
use crate::reading::Reading;

/// States in a list, lowest first, each once.
pub type States = Vec<usize>;

/// The states in which the runs from one state over a word end.
pub fn ends(book: &Book, from: usize, word: &[u8], reading: Reading) -> States {
    let mut here = vec![from];
    for symbol in word {
        if here.is_empty() {
            break;
        }
        here = one_further(book, &here, *symbol, reading);
    }
    here
}

/// The states to which an arc leads from one of these: "An arc is open to each symbol from lowest to highest;
/// repeated arcs do no harm."
fn one_further(book: &Book, here: &[usize], symbol: u8, reading: Reading) -> States {
    let arcs = here.iter().flat_map(|state| &book.states[*state].arcs);
    let mut further: States = arcs.filter(|arc| arc.open(symbol, reading)).map(|arc| arc.to).collect();
    further.sort_unstable();
    further.dedup();
    further
}

/// Whether a run from this state over this word leads to acceptance.
pub fn leads_to_acceptance(book: &Book, from: usize, word: &[u8], reading: Reading) -> bool {
    ends(book, from, word, reading).iter().any(|state| book.states[*state].accept)
}
