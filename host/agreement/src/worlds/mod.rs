//! States and rows that no list of calls need have made.

pub mod breaks;
pub mod junk;
pub mod sound;
