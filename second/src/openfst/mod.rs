//! OpenFst, the university's tool: texts that it prints, put to IMPORT, and the words that it accepts, looked for in
//! accounts. Document 02, No. 7: "The accepted words are exactly the text's".

pub mod case;
pub mod comparison;
pub mod drawing;
pub mod words;
