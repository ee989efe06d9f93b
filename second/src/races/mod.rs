//! Two races on one tape: document 02, No. 8. What a door answers for a joined tape, held against what it answers for the
//! two tapes alone.

pub mod case;
pub mod comparison;
pub mod conditions;
pub mod law;
