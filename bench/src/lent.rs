//! The buffers that a call is lent.

use crate::answer::{LINE, LONGEST_OUT, ROW_BYTES, SET_WORDS, TAPE};

/// What stands in every element before a call: a contestant that leaves a byte unwritten shows.
pub const OLD: u8 = 77;

#[derive(PartialEq)]
pub struct Lent {
    pub rows: Vec<u8>,
    pub sets: Vec<u64>,
    pub scratch: Vec<u8>,
    pub out: Vec<u8>,
    pub origins: Vec<u16>,
    pub lines: Vec<u16>,
}

impl Lent {
    /// Enough for every call, with room for that many lines.
    pub fn for_lines(lines: usize) -> Lent {
        Lent {
            rows: vec![OLD; ROW_BYTES],
            sets: vec![OLD as u64; SET_WORDS],
            scratch: vec![OLD; TAPE + 1],
            out: vec![OLD; LONGEST_OUT],
            origins: vec![OLD as u16; LONGEST_OUT],
            lines: vec![OLD as u16; LINE * lines],
        }
    }

    /// Enough for every heat of that many lanes.
    pub fn for_lanes(lanes: usize) -> Lent {
        let room = lanes * LONGEST_OUT;
        Lent { out: vec![OLD; room], origins: vec![OLD as u16; room], ..Lent::for_lines(0) }
    }
}
