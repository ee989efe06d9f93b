//! The forward pass of REWRITE.

use super::{Ready, Refusal};

/// Where the output goes: it is measured by one sink and written by the other.
trait Sink {
    fn keep(&mut self, symbol: u8, i: usize);

    /// The word of the stretch from `start` up to and not including `end`.
    fn word(&mut self, word: &[u8], start: usize, end: usize);
}

struct Measure(usize);

impl Sink for Measure {
    fn keep(&mut self, _symbol: u8, _i: usize) {
        self.0 += 1;
    }

    fn word(&mut self, word: &[u8], _start: usize, _end: usize) {
        self.0 += word.len();
    }
}

struct Write<'a> {
    out: &'a mut [u8],
    origins: &'a mut [u16],
    at: usize,
}

impl Sink for Write<'_> {
    fn keep(&mut self, symbol: u8, i: usize) {
        self.out[self.at] = symbol;
        self.origins[self.at] = i as u16;
        self.at += 1;
    }

    /// Of two or more symbols, the last one's origin is the last position of the stretch; an empty stretch has none.
    fn word(&mut self, word: &[u8], start: usize, end: usize) {
        let next = self.at + word.len();
        self.out[self.at..next].copy_from_slice(word);
        self.origins[self.at..next].fill(start as u16);
        if word.len() >= 2 && start < end {
            self.origins[next - 1] = (end - 1) as u16;
        }
        self.at = next;
    }
}

/// The output's length and the stretches taken, or 15 with the symbols needed. Measured first only where the buffers might be too short.
/// Inlined with `pass` into REWRITE and HEAT, so that what `Ready` lends stays in registers: with two callers the compiler does not do it by
/// itself, and REWRITE of the house book takes about a tenth longer.
#[inline(always)]
pub fn finish(ready: &Ready, out: &mut [u8], origins: &mut [u16]) -> Result<(usize, usize), Refusal> {
    let room = out.len().min(origins.len());
    if room < ready.outline.longest_output(ready.tape.len()) {
        let mut measure = Measure(0);
        pass(ready, &mut measure);
        if room < measure.0 {
            return Err((15, measure.0));
        }
    }
    let mut write = Write { out, origins, at: 0 };
    let taken = pass(ready, &mut write);
    Ok((write.at, taken))
}

/// The number of stretches taken. After the last symbol there may still be an empty stretch.
#[inline(always)]
fn pass(ready: &Ready, sink: &mut impl Sink) -> usize {
    let mut taken = 0;
    let mut end = 0;
    let mut number = 0;
    for (i, symbol) in ready.tape.iter().enumerate() {
        if i >= end {
            if let Some((stop, rule)) = stretch_at(ready, i, number) {
                sink.word(word_of(ready, rule), i, stop);
                end = stop;
                taken += 1;
            }
            if i >= end {
                sink.keep(*symbol, i); // nothing is taken here, or an empty stretch
            }
        }
        number = ready.left_step(number, *symbol);
    }
    let n = ready.tape.len();
    if let Some((_, rule)) = stretch_at(ready, n, number) {
        sink.word(word_of(ready, rule), n, n);
        taken += 1;
    }
    taken
}

fn word_of<'a>(ready: &Ready<'a>, rule: usize) -> &'a [u8] {
    let word = &ready.book[ready.outline.words[rule] as usize + 1..];
    &word[1..1 + word[0] as usize]
}

fn stretch_at(ready: &Ready, i: usize, number: usize) -> Option<(usize, usize)> {
    if ready.right_set(i) & ready.outline.all_focus_starts == 0 {
        return None; // most positions
    }
    ready.taken_at(i, ready.sets[number])
}
