//! The drills, and the service that they are held with.

pub mod compare;
pub mod death;
pub mod drain;
pub mod flood;
pub mod forged;
pub mod impaired;
pub mod operator;
pub mod ports;
mod service;
pub mod upgrade;
