//! Packets with forged addresses. They come to the director's host by a device of their own, as from a network that it isn't told of.

use crate::lab::network::{VIRTUAL, VIRTUAL_PORT};
use crate::lab::{Failure, Lab};
use programs::{FILL, FORGE, IP};

/// The device by which they come.
const DEVICE: &str = "forge0";
/// Addresses that nobody has, and the first client there.
const NETWORK: &str = "10.80.0.0/12";
const FIRST: &str = "10.80.0.1:1024";

/// The addresses of forged clients begin so.
pub const FORGED: &str = "10.8";

/// Sends forged packets.
pub struct Forger<'a> {
    lab: &'a Lab,
}

impl Forger<'_> {
    /// Makes the device. What is sent to addresses that nobody has is dropped behind the director.
    pub fn new(lab: &Lab) -> Result<Forger<'_>, Failure> {
        let ip = |args: &[&str]| lab.output("director", IP, args).map(|_| ());
        ip(&["tuntap", "add", "dev", DEVICE, "mode", "tun"])?;
        ip(&["link", "set", DEVICE, "up"])?;
        ip(&["route", "add", "blackhole", NETWORK])?;
        Ok(Forger { lab })
    }

    /// Sends so many SYNs, each of another client, from so many addresses.
    pub fn flood(&self, syns: u32, addresses: u32) -> Result<(), Failure> {
        let service = format!("{VIRTUAL}:{VIRTUAL_PORT}");
        let order = [DEVICE, FIRST, &service, &syns.to_string(), &addresses.to_string()];
        self.lab.output("director", FILL, &order).map(|_| ())
    }

    /// Sends a reset from there to there.
    pub fn reset(
        &self,
        from: &str,
        to: &str,
        sequence: u32,
        checksum: Checksum,
    ) -> Result<(), Failure> {
        let checksum = match checksum {
            Checksum::Right => "right",
            Checksum::Wrong => "wrong",
        };
        let order = [DEVICE, from, to, "reset", &sequence.to_string(), checksum];
        self.lab.output("director", FORGE, &order).map(|_| ())
    }
}

/// Of what kind a forged packet's checksum of TCP is.
#[derive(Clone, Copy, Debug, PartialEq, Eq)]
pub enum Checksum {
    /// As a host makes it.
    Right,
    /// Damaged.
    Wrong,
}
