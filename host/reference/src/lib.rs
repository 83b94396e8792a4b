//! A packet director written from the text of the rules alone (docs/SCOPE.md has them), as a second opinion.
//!
//! Simple rather than fast: every call judges the whole state first. Words in quotation marks are the rules' own.

#![forbid(unsafe_code)]

pub mod book;
pub mod checksum;
pub mod connection;
pub mod data;
pub mod director;
pub mod header;
pub mod packets;
pub mod refusal;
pub mod rewrite;
pub mod scheduler;
pub mod segment;
pub mod settings;
pub mod soundness;
pub mod table;
pub mod weights;

pub use data::{Answer, Change, Server, Service, State, Walk, PLACES};
pub use director::{count, inbound, outbound, set_up, set_weight, tick};
pub use soundness::is_sound;
