//! The fast stand-in: sets as numbers, stepped symbol by symbol, for calls on which the plain reading would take too
//! long. It knows no wrong reading. Wherever the plain reading is worked out, the two are compared (`agreement`).

pub mod arcs;
pub mod candidates;
pub mod language;
pub mod sets;
