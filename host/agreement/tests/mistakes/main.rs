//! Directors with a mistake: each must be found, its case shortened and replayed.

mod checksum;
mod many;
mod mistaken_many;
mod mistaken_serve;
mod packets;
mod picks;
mod renewal;
mod serves;
mod state;
mod support;
mod weights;
