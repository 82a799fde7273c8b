//! A hand-written numbering machine to compare another one with, and lists of
//! events that lead it into deep states.

pub mod machine;
pub mod maker;
pub mod random;
pub mod tables;
