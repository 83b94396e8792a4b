//! The books: what each server's count must be, told without the director's table.
//!
//! One is kept from what clients and replicas know, and each count is held against it at once. The other is kept from the
//! packets, where some are lost or come twice, and all counts are held against it in the end. A drill has either, or both.

pub mod both;
pub mod looks;
pub mod observation;
pub mod packets;
pub mod replaced;
pub mod sessions;

use crate::lab::director::Director;
use crate::lab::status::Status;
use crate::lab::Failure;

/// How long a connection without packets counts, in seconds of the director's clock.
pub const IDLE: u32 = 900;
/// How long one counts that both sides have finished.
pub const FINISHED: u32 = 120;

/// What a drill tells a book while it runs.
pub trait Book {
    /// Looks at the director's table. Its counts are held against the book, now or in the end.
    fn look(&mut self, director: &Director) -> Result<Status, Failure>;

    /// A session of the client's port is open, on that server.
    fn opened(&mut self, server: usize, port: u16);

    /// The open session of that port has ended; its last packet came between these two clocks.
    fn ended(&mut self, port: u16, before: u32, after: u32);

    /// From now on connections come and go on these servers that aren't known one by one.
    fn crowd_came(&mut self, servers: Vec<usize>);

    /// All such connections have ended by that clock.
    fn crowd_went(&mut self, after: u32);

    /// No look comes after this.
    fn close(&mut self) -> Result<(), Failure>;
}
