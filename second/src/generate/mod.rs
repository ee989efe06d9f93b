//! Calls at random: valid books with many overlapping candidates, empty ones among them or none, damaged books, tapes
//! with bad symbols, lanes inside and outside their buffer, texts with and without faults, buffers of every length, and
//! the limits.

pub mod accounts;
pub mod alphabet;
pub mod buffers;
pub mod calls;
pub mod damage;
pub mod full;
pub mod heats;
pub mod imported;
pub mod imports;
pub mod limits;
pub mod lines;
pub mod parts;
pub mod races;
pub mod rules;
pub mod spoilt_texts;
pub mod tapes;
pub mod texts;
