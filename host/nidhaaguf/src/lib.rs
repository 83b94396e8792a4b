//! A packet director: it takes IPv4 packets sent to one virtual address and port and gives them to 1 to 64 servers.
//!
//! The work is done by a library whose rules are proved; this crate is its safe form for Rust. It opens no network itself:
//! the program hands packets in as bytes and sends what comes back, or lends a descriptor that they come by.
//!
//! A program sets up a [`Director`], then hands it packets with the time in seconds:
//!
//! - [`inbound`](Director::inbound): a packet from a client. The first of a connection (a TCP SYN, or any UDP packet)
//!   picks a server by the [`Scheduler`] and later ones go to the same. The packet's destination becomes the server.
//!   A SYN of a client whose last connection both sides have finished is the first of a new one.
//! - [`outbound`](Director::outbound): a server's packet back. Its source becomes the virtual address and port.
//! - [`tick`](Director::tick): time passes, and idle connections are removed. Packets do the same.
//! - [`burst`](Director::burst): a tick and many packets of both ways, far cheaper than one by one.
//! - [`serve`](Director::serve): the same with packets that are read from a TUN device or a socket and written back to it.
//! - [`set_weight`](Director::set_weight) and [`count`](Director::count): drain a server by setting its weight to 0, and
//!   take it away once its count is 0 (see `examples/drain.rs`).
//!
//! What can't be done is refused with a [`Refusal`], and a refused packet is left as it was.
//!
//! ```
//! use nidhaaguf::{Change, Director, Passed, Protocol, Scheduler, Settings};
//!
//! let settings = Settings::new("192.0.2.10:5432".parse()?, Protocol::Tcp, Scheduler::RoundRobin)
//!     .server("10.1.0.5:6432".parse()?, 1)
//!     .server("10.1.0.6:6432".parse()?, 1);
//! let mut director = Director::set_up(&settings, 1_024)?;
//!
//! // a SYN from 10.0.0.1:40000 to the virtual address and port
//! let mut packet = [
//!     0x45, 0x00, 0x00, 0x28, 0x00, 0x00, 0x40, 0x00, 0x40, 0x06, 0x6E, 0xC5, 10, 0, 0, 1, 192, 0, 2, 10, // IPv4
//!     0x9C, 0x40, 0x15, 0x38, 0, 0, 0, 0, 0, 0, 0, 0, 0x50, 0x02, 0x00, 0x00, 0x32, 0x5F, 0x00, 0x00, // TCP
//! ];
//! let passed = director.inbound(&mut packet, 1)?;
//! assert_eq!(passed, Passed { server: 0, change: Change::Opened });
//!
//! // it is now a packet to 10.1.0.5:6432, its two checksums edited
//! assert_eq!(packet[16..20], [10, 1, 0, 5]);
//! assert_eq!(packet[22..24], 6_432_u16.to_be_bytes());
//! assert_eq!((&packet[10..12], &packet[36..38]), (&[0x26, 0xCA][..], &[0xE6, 0x7B][..]));
//!
//! assert_eq!(director.count(0), Ok(1));
//! assert_eq!(director.tick(901), Ok(1)); // 900 s without a packet: removed
//! assert_eq!(director.count(0), Ok(0));
//! # Ok::<(), Box<dyn std::error::Error>>(())
//! ```
//!
//! # Building
//!
//! `./archives nidhaaguf nidhaaguf_serve` at the top of the repository writes the two archives to target/staticlib, where
//! this crate's build looks for them; the environment variable NIDHAAGUF_LIB names another place.

#![deny(unsafe_code)]
#![warn(missing_debug_implementations)]

mod burst;
mod connections;
mod director;
#[allow(unsafe_code)]
mod ffi;
mod passed;
pub mod raw;
mod refusal;
mod served;
mod settings;
mod structs;
mod trace;
mod weights;

pub use burst::{Answered, Burst};
pub use connections::{Connection, Phase};
pub use director::Director;
pub use passed::{Change, Passed};
pub use refusal::Refusal;
pub use served::{Counters, End, Served, Way};
pub use settings::{Protocol, Scheduler, Server, Settings};
pub use trace::{TakenPacket, Trace};
