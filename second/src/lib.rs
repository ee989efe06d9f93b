//! The independent second program: what document 01 says, with No. 1, No. 2 and No. 4 to No. 7 of document 02, worked
//! out by brute force, and compared with what the proved operations do. It shares no code, no table and no constant with
//! them.
//!
//! The reference is read in this order: `record`, `book`, `run`, `language`, `candidates`, `taken`, `stretches`,
//! `output`, `account`, `sets`, `numbering`, `sides`, `workspace`, `admission`, `room`, `rewrite`, `show`, `lane`, `heat`,
//! `text`, `import`, `operations`, `digits`, `program`; `agreement` says where `fast` stands in for it. Beside it stand
//! the random calls (`generate`), the driving of another program (`call`, `answer`, `command`, `comparison`), the search
//! for a smallest failing case (`shrink`), the law of two races on one tape (`races`: document 02, No. 8), and the
//! commands (`check`, `check_program`, `serve`).

pub mod account;
pub mod admission;
pub mod agreement;
pub mod answer;
pub mod book;
pub mod call;
pub mod candidates;
pub mod chance;
pub mod check;
pub mod check_program;
pub mod command;
pub mod comparison;
pub mod digits;
pub mod draft;
pub mod fast;
pub mod generate;
pub mod hand;
pub mod heat;
pub mod hex;
pub mod house;
pub mod import;
pub mod lane;
pub mod language;
pub mod numbering;
pub mod openfst;
pub mod operations;
pub mod output;
pub mod peer;
pub mod program;
pub mod races;
pub mod reading;
pub mod record;
pub mod rewrite;
pub mod room;
pub mod run;
pub mod serve;
pub mod sets;
pub mod show;
pub mod shrink;
pub mod sides;
pub mod stretches;
pub mod taken;
pub mod tally;
pub mod text;
pub mod workspace;
pub mod wrong_digit;
pub mod wrong_import;
pub mod wrong_insertion;
pub mod wrong_lane;
pub mod wrong_mark;
pub mod wrong_symbol;
pub mod wrong_text;
