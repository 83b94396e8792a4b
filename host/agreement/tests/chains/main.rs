//! Directors one behind the other: what the laws of editing a checksum mean for whole packets.

mod chain;
mod drawn;
mod one_director;
#[path = "../support/mod.rs"]
mod support;
mod there_and_back;
