//! The live director: the proved library between clients and replicas, on a TUN device.
//!
//! In `nidhaagufd` a thread sits in the library's loop, which reads packets from the device, and writes back those that it
//! accepts; between two calls of it the clock ticks and commands are carried out, which `nidhaagufctl` sends over a Unix
//! socket. All decisions about packets are the library's.

#![deny(unsafe_code)]
#![warn(missing_docs)]

pub mod book;
pub mod client;
pub mod clock;
pub mod config;
pub mod control;
pub mod counters;
pub mod device;
pub mod handover;
pub mod instance;
pub mod log;
pub mod packet;
pub mod packet_thread;
pub mod policy;
pub mod routes;
pub mod segments;
pub mod serve;
pub mod start;
#[allow(unsafe_code)]
pub mod system;
pub mod tun;
