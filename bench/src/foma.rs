//! foma, through its library: the turn rule of the house book as a replacement with a context, and a tape as a word of letters.

use crate::answer::SYMBOLS;
use std::ffi::{c_char, c_void, CStr, CString};
use std::ptr::null_mut;

#[link(name = "foma")]
extern "C" {
    fn fsm_get_library_version_string() -> *const c_char;
    fn fsm_parse_regex(regex: *mut c_char, networks: *mut c_void, functions: *mut c_void) -> *mut c_void;
    fn fsm_destroy(net: *mut c_void) -> i32;
    fn apply_init(net: *mut c_void) -> *mut c_void;
    fn apply_clear(handle: *mut c_void);
    fn apply_down(handle: *mut c_void, word: *mut c_char) -> *mut c_char;
}

/// Of the symbols, from 0 on; to foma the digit 0 is the empty word.
const LETTERS: &[u8; SYMBOLS] = b"abcdefghijklmnopqrstuvwxyzABCDEF";

/// Press c, hold d, release e, push f, turn i.
const TURN: &str = "[c d* e] @-> i || _ f";

fn symbol(letter: u8) -> u8 {
    LETTERS.iter().position(|one| *one == letter).expect("a letter of a symbol") as u8
}

pub fn version() -> String {
    unsafe { CStr::from_ptr(fsm_get_library_version_string()) }.to_string_lossy().into_owned()
}

/// A tape as foma takes it, made before the clock runs.
pub fn word(tape: &[u8]) -> CString {
    CString::new(tape.iter().map(|symbol| LETTERS[*symbol as usize]).collect::<Vec<u8>>()).expect("letters")
}

/// The compiled rule, ready to be applied.
pub struct Turn {
    net: *mut c_void,
    handle: *mut c_void,
}

impl Turn {
    pub fn compile() -> Turn {
        let regex = CString::new(TURN).expect("letters").into_raw();
        unsafe {
            let net = fsm_parse_regex(regex, null_mut(), null_mut());
            drop(CString::from_raw(regex));
            assert!(!net.is_null(), "foma reads the rule");
            Turn { net, handle: apply_init(net) }
        }
    }

    /// The output, which foma keeps until the next word.
    pub fn apply(&mut self, word: &CStr) -> &CStr {
        unsafe {
            let out = apply_down(self.handle, word.as_ptr().cast_mut());
            assert!(!out.is_null(), "foma has an output for every word");
            CStr::from_ptr(out)
        }
    }

    pub fn output(&mut self, tape: &[u8]) -> Vec<u8> {
        self.apply(&word(tape)).to_bytes().iter().map(|letter| symbol(*letter)).collect()
    }
}

impl Drop for Turn {
    fn drop(&mut self) {
        unsafe {
            apply_clear(self.handle);
            fsm_destroy(self.net);
        }
    }
}
