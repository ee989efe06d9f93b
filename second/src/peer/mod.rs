//! Real peers: the replacement rules of foma and hfst, two tools of other hands, on books that both can read.

pub mod comparison;
pub mod expression;
pub mod rules;
pub mod script;
