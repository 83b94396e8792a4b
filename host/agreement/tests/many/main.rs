//! Bursts and serves whose answers are written down here, and the reference's single calls beside them.

mod ends;
mod lent;
mod lists;
mod other_ends;
mod support;
mod traced;
