//! Bursts and serves: a tick and many packets in one call, compared with the reference's single calls.

pub mod call;
pub mod compare;
pub mod draw;
mod draw_serve;
pub mod edges;
mod edges_of_serves;
pub mod ends;
pub mod left;
pub mod other_end;
pub mod report;
pub mod run;
pub mod served;
pub mod sides;
pub mod singly;
pub mod wanted;
