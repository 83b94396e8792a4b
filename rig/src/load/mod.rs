//! The clients: sessions that make payments, and load by pgbench.

pub mod at_work;
pub mod payments;
pub mod pgbench;
pub mod session;
