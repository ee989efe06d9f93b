//! PCRE2 with its just-in-time compiler: a book of touches as one pattern with a group a rule, matched over the tape's
//! bytes. The output and the origins are written as the proved library writes them; the alternatives stand in the
//! rules' order, and the foci of a start all end at one place, so the first that matches is the one that is taken.

use crate::lent::Lent;
use std::ffi::c_void;
use std::ptr::null_mut;

#[link(name = "pcre2-8")]
extern "C" {
    fn pcre2_config_8(what: u32, to: *mut c_void) -> i32;
    fn pcre2_compile_8(
        pattern: *const u8,
        length: usize,
        options: u32,
        error: *mut i32,
        offset: *mut usize,
        context: *mut c_void,
    ) -> *mut c_void;
    fn pcre2_code_free_8(code: *mut c_void);
    fn pcre2_jit_compile_8(code: *mut c_void, options: u32) -> i32;
    fn pcre2_match_data_create_from_pattern_8(code: *const c_void, context: *mut c_void) -> *mut c_void;
    fn pcre2_match_data_free_8(found: *mut c_void);
    fn pcre2_get_ovector_pointer_8(found: *mut c_void) -> *const usize;
    fn pcre2_jit_match_8(
        code: *const c_void,
        subject: *const u8,
        length: usize,
        start: usize,
        options: u32,
        found: *mut c_void,
        context: *mut c_void,
    ) -> i32;
}

const CONFIG_VERSION: u32 = 11;
const JIT_COMPLETE: u32 = 1;
const NO_MATCH: i32 = -1;

/// A book that a pattern can express: one group a rule, and the rules' words, of one symbol each.
#[derive(Clone, Copy)]
pub struct Book {
    pattern: &'static str,
    words: &'static [u8],
}

pub const HOUSE: Book =
    Book { pattern: r"(?<=\x01)(\x02\x04)|(\x02\x03*\x04)(?=\x05)|(\x02\x03*\x04)(?=\x00\x00)", words: &[10, 8, 9] };

pub const TURN: Book = Book { pattern: r"(\x02\x03*\x04)(?=\x05)", words: &[8] };

pub fn version() -> String {
    let mut text = [0u8; 64];
    let length = unsafe { pcre2_config_8(CONFIG_VERSION, text.as_mut_ptr().cast()) };
    String::from_utf8_lossy(&text[..length as usize - 1]).into_owned()
}

pub struct Pattern {
    code: *mut c_void,
    found: *mut c_void,
    words: &'static [u8],
}

impl Pattern {
    pub fn compile(book: Book) -> Pattern {
        let (mut error, mut offset) = (0, 0);
        let pattern = book.pattern.as_bytes();
        unsafe {
            let code = pcre2_compile_8(pattern.as_ptr(), pattern.len(), 0, &mut error, &mut offset, null_mut());
            assert!(!code.is_null(), "PCRE2 reads the pattern");
            assert_eq!(pcre2_jit_compile_8(code, JIT_COMPLETE), 0, "this PCRE2 has its just-in-time compiler");
            Pattern { code, found: pcre2_match_data_create_from_pattern_8(code, null_mut()), words: book.words }
        }
    }

    /// The next stretch at or after `from`, and its rule.
    fn next(&self, tape: &[u8], from: usize) -> Option<(usize, usize, usize)> {
        unsafe {
            let groups = pcre2_jit_match_8(self.code, tape.as_ptr(), tape.len(), from, 0, self.found, null_mut());
            if groups == NO_MATCH {
                return None;
            }
            assert!(groups >= 2, "PCRE2 ends without an error");
            let bounds = pcre2_get_ovector_pointer_8(self.found);
            Some((*bounds, *bounds.add(1), groups as usize - 2))
        }
    }

    /// The output's length.
    pub fn substitute(&self, tape: &[u8], lent: &mut Lent) -> usize {
        let (out, origins) = (&mut lent.out[..], &mut lent.origins[..]);
        let mut at = 0;
        let mut from = 0;
        while let Some((start, end, rule)) = self.next(tape, from) {
            at = keep(tape, from, start, out, origins, at);
            out[at] = self.words[rule];
            origins[at] = start as u16;
            at += 1;
            from = end;
        }
        keep(tape, from, tape.len(), out, origins, at)
    }
}

/// Copies the kept symbols from `from` to `end`.
fn keep(tape: &[u8], from: usize, end: usize, out: &mut [u8], origins: &mut [u16], at: usize) -> usize {
    let next = at + end - from;
    out[at..next].copy_from_slice(&tape[from..end]);
    origins[at..next].iter_mut().zip(from..).for_each(|(origin, i)| *origin = i as u16);
    next
}

impl Drop for Pattern {
    fn drop(&mut self) {
        unsafe {
            pcre2_match_data_free_8(self.found);
            pcre2_code_free_8(self.code);
        }
    }
}
