//! Compares the library with the reference, an independent second implementation, call by call.
//!
//! A case is a first state and row and a list of calls, all drawn from a seed. Every call is made on both with the same
//! input; answer, state, row and packet must come out the same. `many` has the bursts and serves: the library's on one side,
//! and on the other the reference's single calls that they stand for.

#![forbid(unsafe_code)]

pub mod call;
pub mod case;
pub mod choose;
pub mod compare;
pub mod counted;
pub mod edges;
pub mod lent;
pub mod many;
pub mod options;
pub mod report;
pub mod run;
pub mod shorten;
pub mod sides;
pub mod tally;
pub mod world;
pub mod worlds;
