//! The TUN device: a network interface whose packets this process reads and writes.

use crate::system;
use std::fs::{self, File, OpenOptions};
use std::io::{self, ErrorKind, Read, Write};
use std::os::fd::{AsRawFd, OwnedFd, RawFd};

const EPERM: i32 = 1;
const EBUSY: i32 = 16;
const EINVAL: i32 = 22;

/// An open TUN device. Closed, the interface goes away.
#[derive(Debug)]
pub struct Tun {
    file: File,
    name: String,
}

impl Tun {
    /// Creates the device, or takes one that is there and that nobody has open.
    pub fn open(name: &str) -> Result<Tun, String> {
        let file = OpenOptions::new()
            .read(true)
            .write(true)
            .open("/dev/net/tun")
            .map_err(|error| format!("/dev/net/tun can't be opened: {error}"))?;
        system::set_interface(&file, name).map_err(|error| complaint(name, &error))?;
        Ok(Tun { file, name: name.to_string() })
    }

    /// Waits for a packet, and gives its length; None if a signal came first. An error means that the device is gone.
    pub fn read(&self, buffer: &mut [u8]) -> Result<Option<usize>, String> {
        match (&self.file).read(buffer) {
            Ok(length) => Ok(Some(length)),
            Err(error) if error.kind() == ErrorKind::Interrupted => Ok(None),
            Err(error) => Err(format!("the device {} is gone: {error}", self.name)),
        }
    }

    /// Writes a packet; false if the device doesn't take it, as one that is down.
    pub fn write(&self, packet: &[u8]) -> bool {
        (&self.file).write(packet).is_ok()
    }
}

/// Why the device isn't there.
fn complaint(name: &str, error: &io::Error) -> String {
    let hint = match error.raw_os_error() {
        Some(EBUSY) => " (another program has it open)",
        Some(EPERM) => " (that takes root, or the capability CAP_NET_ADMIN)",
        Some(EINVAL) if is_interface(name) => {
            let expected = "expected a TUN device of one queue, or a name that no interface has";
            return format!("the device {name} can't be used: {expected}, got another interface");
        }
        _ => "",
    };
    format!("the device {name} can't be created: {error}{hint}")
}

/// Whether there is a network interface of that name, as Linux lists them: `name: counts`, after two lines of titles.
fn is_interface(name: &str) -> bool {
    let listed = fs::read_to_string("/proc/thread-self/net/dev").unwrap_or_default();
    let names = listed.lines().skip(2).filter_map(|line| line.split(':').next());
    names.map(str::trim).any(|listed| listed == name)
}

impl AsRawFd for Tun {
    fn as_raw_fd(&self) -> RawFd {
        self.file.as_raw_fd()
    }
}

impl From<Tun> for OwnedFd {
    fn from(device: Tun) -> OwnedFd {
        device.file.into()
    }
}
