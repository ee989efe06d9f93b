//! What is measured, for both programs: `bench` times the library beside its peers, `inputs` writes what its stack is measured on.

pub mod alphabet;
pub mod answer;
pub mod books;
pub mod cases;
pub mod chance;
pub mod tapes;
