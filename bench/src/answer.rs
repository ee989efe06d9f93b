//! The answers of the operations, laid out as include/qafrendi.h says, so that every contestant gives the same type.

#[repr(C)]
#[derive(Clone, Copy, Debug, PartialEq)]
pub struct Checked {
    pub reply: u8,
    pub place: usize,
    pub rules: usize,
    pub states: usize,
    pub arcs: usize,
}

#[repr(C)]
#[derive(Clone, Copy, Debug, PartialEq)]
pub struct Built {
    pub reply: u8,
    pub place: usize,
    pub left: usize,
    pub right: usize,
}

#[repr(C)]
#[derive(Clone, Copy, Debug, PartialEq)]
pub struct Rewritten {
    pub reply: u8,
    pub place: usize,
    pub length: usize,
    pub taken: usize,
}

#[repr(C)]
#[derive(Clone, Copy, Debug, PartialEq)]
pub struct Accounted {
    pub reply: u8,
    pub place: usize,
    pub candidates: usize,
}

/// One lane of a heat: start and length are the caller's, the rest it gets back.
#[repr(C)]
#[derive(Clone, Copy, Debug, PartialEq)]
pub struct Lane {
    pub start: usize,
    pub length: usize,
    pub out: usize,
    pub taken: usize,
    pub reply: u8,
    pub place: usize,
}

#[repr(C)]
#[derive(Clone, Copy, Debug, PartialEq)]
pub struct Heated {
    pub reply: u8,
    pub place: usize,
}

/// The numbers of the documents that lengths of buffers follow from.
pub const SYMBOLS: usize = 32;
pub const RULES: usize = 16;
pub const STATES: usize = 64;
pub const ARCS: usize = 512;
pub const WORD: usize = 8;
pub const TAPE: usize = 4096;
/// A word put in before every symbol and at the end.
pub const LONGEST_OUT: usize = (WORD + 1) * TAPE + WORD;
pub const MOST_SETS: usize = 256;
pub const PAIRS: usize = SYMBOLS * MOST_SETS;
pub const ROW_BYTES: usize = 2 * PAIRS;
pub const SET_WORDS: usize = 2 * MOST_SETS;
pub const LINE: usize = 6;
pub const LANES: usize = 10;
