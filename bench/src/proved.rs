//! The proved library, through its C face. An answer of more than two words goes where a pointer in front of the arguments says, and the
//! pointer comes back: that is how C hands it over on x86-64. Said outright, it holds on every processor that `native-lib` compiles for. An
//! answer of two words, as HEAT's is, comes back in registers on all of them.

use crate::answer::{Accounted, Built, Checked, Heated, Lane, Rewritten};
use crate::heats::in_turn;
use crate::lent::Lent;
use std::mem::MaybeUninit;

#[link(name = "deck", kind = "static")]
extern "C" {
    fn qafrendi_check(answer: *mut Checked, book: *const u8, book_length: usize) -> *mut Checked;
    fn qafrendi_build(
        answer: *mut Built,
        book: *const u8,
        book_length: usize,
        rows: *mut u8,
        rows_length: usize,
        sets: *mut u64,
        sets_length: usize,
    ) -> *mut Built;
    fn qafrendi_rewrite(
        answer: *mut Rewritten,
        book: *const u8,
        book_length: usize,
        tape: *const u8,
        tape_length: usize,
        rows: *mut u8,
        rows_length: usize,
        sets: *mut u64,
        sets_length: usize,
        scratch: *mut u8,
        scratch_length: usize,
        out: *mut u8,
        out_length: usize,
        origins: *mut u16,
        origins_length: usize,
    ) -> *mut Rewritten;
    fn qafrendi_account(
        answer: *mut Accounted,
        book: *const u8,
        book_length: usize,
        tape: *const u8,
        tape_length: usize,
        rows: *mut u8,
        rows_length: usize,
        sets: *mut u64,
        sets_length: usize,
        scratch: *mut u8,
        scratch_length: usize,
        lines: *mut u16,
        lines_length: usize,
    ) -> *mut Accounted;
    fn qafrendi_heat(
        book: *const u8,
        book_length: usize,
        tapes: *const u8,
        tapes_length: usize,
        lanes: *mut Lane,
        lanes_length: usize,
        rows: *mut u8,
        rows_length: usize,
        sets: *mut u64,
        sets_length: usize,
        scratch: *mut u8,
        scratch_length: usize,
        out: *mut u8,
        out_length: usize,
        origins: *mut u16,
        origins_length: usize,
    ) -> Heated;
}

// Each buffer is a slice of its own, hence not null, aligned, as long as said, and apart from the others: what the header asks for.

/// What the operation writes where it is told to.
fn answer<A>(operation: impl FnOnce(*mut A) -> *mut A) -> A {
    let mut place = MaybeUninit::uninit();
    operation(place.as_mut_ptr());
    unsafe { place.assume_init() }
}

pub fn check(book: &[u8]) -> Checked {
    answer(|to| unsafe { qafrendi_check(to, book.as_ptr(), book.len()) })
}

pub fn build(book: &[u8], lent: &mut Lent) -> Built {
    let Lent { rows, sets, .. } = lent;
    answer(|to| unsafe {
        qafrendi_build(to, book.as_ptr(), book.len(), rows.as_mut_ptr(), rows.len(), sets.as_mut_ptr(), sets.len())
    })
}

pub fn rewrite(book: &[u8], tape: &[u8], lent: &mut Lent) -> Rewritten {
    rewrite_after(0, book, tape, lent)
}

/// REWRITE into the outputs from `used` on.
fn rewrite_after(used: usize, book: &[u8], tape: &[u8], lent: &mut Lent) -> Rewritten {
    let Lent { rows, sets, scratch, out, origins, .. } = lent;
    let (out, origins) = (&mut out[used..], &mut origins[used..]);
    answer(|to| unsafe {
        qafrendi_rewrite(
            to,
            book.as_ptr(),
            book.len(),
            tape.as_ptr(),
            tape.len(),
            rows.as_mut_ptr(),
            rows.len(),
            sets.as_mut_ptr(),
            sets.len(),
            scratch.as_mut_ptr(),
            scratch.len(),
            out.as_mut_ptr(),
            out.len(),
            origins.as_mut_ptr(),
            origins.len(),
        )
    })
}

pub fn account(book: &[u8], tape: &[u8], lent: &mut Lent) -> Accounted {
    let Lent { rows, sets, scratch, lines, .. } = lent;
    answer(|to| unsafe {
        qafrendi_account(
            to,
            book.as_ptr(),
            book.len(),
            tape.as_ptr(),
            tape.len(),
            rows.as_mut_ptr(),
            rows.len(),
            sets.as_mut_ptr(),
            sets.len(),
            scratch.as_mut_ptr(),
            scratch.len(),
            lines.as_mut_ptr(),
            lines.len(),
        )
    })
}

pub fn heat(book: &[u8], tapes: &[u8], lanes: &mut [Lane], lent: &mut Lent) -> Heated {
    let Lent { rows, sets, scratch, out, origins, .. } = lent;
    unsafe {
        qafrendi_heat(
            book.as_ptr(),
            book.len(),
            tapes.as_ptr(),
            tapes.len(),
            lanes.as_mut_ptr(),
            lanes.len(),
            rows.as_mut_ptr(),
            rows.len(),
            sets.as_mut_ptr(),
            sets.len(),
            scratch.as_mut_ptr(),
            scratch.len(),
            out.as_mut_ptr(),
            out.len(),
            origins.as_mut_ptr(),
            origins.len(),
        )
    }
}

/// What HEAT is in place of: a REWRITE for each lane, one after another, each with the room still left.
pub fn rewrites(book: &[u8], tapes: &[u8], lanes: &mut [Lane], lent: &mut Lent) {
    in_turn(tapes, lanes, |tape, used| rewrite_after(used, book, tape, lent));
}
