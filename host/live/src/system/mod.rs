//! Linux calls that the standard library doesn't offer, and all the unsafe code of this crate.

pub mod descriptors;
pub mod signals;

use std::ffi::c_void;
use std::fs::File;
use std::io::{Error, ErrorKind, Result};
use std::mem::size_of;
use std::os::fd::{AsFd, AsRawFd};
use std::os::unix::net::UnixStream;
use std::time::Duration;

const TUNSETIFF: u64 = 0x4004_54CA;
const TUNGETIFF: u64 = 0x8004_54D2;
/// IFF_TUN: packets without a link header. IFF_NO_PI: nor the four bytes that TUN puts in front by default.
const TUN_PLAIN: i16 = 0x0001 | 0x1000;
const CLOCK_BOOTTIME: i32 = 7;
const SOL_SOCKET: i32 = 1;
const SO_SNDBUF: i32 = 7;
const SO_PEERCRED: i32 = 17;

/// C's `struct ifreq`, as TUNSETIFF reads it.
#[repr(C)]
struct InterfaceRequest {
    name: [u8; 16],
    flags: i16,
    rest: [u8; 22],
}

/// C's `struct ucred`: a process and whose it is.
#[repr(C)]
#[derive(Clone, Copy, Debug, Default)]
pub struct Credentials {
    /// Its number.
    pub process: i32,
    /// Its user.
    pub user: u32,
    group: u32,
}

/// C's `struct timespec`.
#[repr(C)]
#[derive(Default)]
struct TimeSpec {
    seconds: i64,
    nanoseconds: i64,
}

/// C's `struct pollfd`: a file to wait for.
#[repr(C)]
#[derive(Clone, Copy, Debug)]
pub struct Waited {
    descriptor: i32,
    events: i16,
    happened: i16,
}

const POLLIN: i16 = 1;
const POLLOUT: i16 = 4;

extern "C" {
    fn ioctl(descriptor: i32, request: u64, ...) -> i32;
    fn poll(entries: *mut Waited, count: u64, milliseconds: i32) -> i32;
    fn getsockopt(
        descriptor: i32,
        level: i32,
        name: i32,
        value: *mut c_void,
        length: *mut u32,
    ) -> i32;
    fn setsockopt(descriptor: i32, level: i32, name: i32, value: *const c_void, length: u32)
        -> i32;
    fn clock_gettime(clock: i32, time: *mut TimeSpec) -> i32;
    fn umask(mask: u32) -> u32;
    fn geteuid() -> u32;
}

/// Makes an open /dev/net/tun the TUN device of that name, of at most 15 bytes.
pub fn set_interface(tun: &File, name: &str) -> Result<()> {
    let mut request = InterfaceRequest { name: [0; 16], flags: TUN_PLAIN, rest: [0; 22] };
    // one byte less than there is: the name ends in a zero
    match request.name[..15].get_mut(..name.len()) {
        Some(place) => place.copy_from_slice(name.as_bytes()),
        None => return Err(ErrorKind::InvalidInput.into()),
    }
    // SAFETY: the file is open, and the request reads and writes one ifreq, which lives through the call.
    done(unsafe { ioctl(tun.as_raw_fd(), TUNSETIFF, &mut request) })
}

/// The name of the TUN device that an open file is; an error where it is none.
pub fn interface_name(tun: impl AsFd) -> Result<String> {
    let mut request = InterfaceRequest { name: [0; 16], flags: 0, rest: [0; 22] };
    // SAFETY: the file is open, and the request writes one ifreq, which lives through the call.
    done(unsafe { ioctl(tun.as_fd().as_raw_fd(), TUNGETIFF, &mut request) })?;
    let name = request.name.split(|&byte| byte == 0).next().unwrap_or_default();
    Ok(String::from_utf8_lossy(name).into_owned())
}

impl Waited {
    /// Waits until the file can be read, written, or either; its end is always told.
    pub fn new(file: &impl AsRawFd, read: bool, write: bool) -> Waited {
        let events = if read { POLLIN } else { 0 } | if write { POLLOUT } else { 0 };
        Waited { descriptor: file.as_raw_fd(), events, happened: 0 }
    }

    /// Whether something happened.
    pub fn is_ready(&self) -> bool {
        self.happened != 0
    }
}

/// Waits until one of the files is ready or the time is over, which is rounded up to milliseconds.
pub fn wait(files: &mut [Waited], time: Duration) -> Result<()> {
    let milliseconds = time.as_nanos().div_ceil(1_000_000).min(i32::MAX as u128) as i32;
    // SAFETY: the pointer and the count are those of a slice that is lent for the call.
    let result = unsafe { poll(files.as_mut_ptr(), files.len() as u64, milliseconds) };
    match done(result) {
        // nothing was told then
        Err(error) if error.kind() == ErrorKind::Interrupted => {
            files.iter_mut().for_each(|file| file.happened = 0);
            Ok(())
        }
        other => other,
    }
}

/// The process at the other end, as of its connecting or its listening.
pub fn peer(stream: &UnixStream) -> Result<Credentials> {
    let mut peer = Credentials::default();
    let mut length = size_of::<Credentials>() as u32;
    let value = (&raw mut peer).cast();
    // SAFETY: the value is a whole ucred of the length told, and both live through the call.
    done(unsafe { getsockopt(stream.as_raw_fd(), SOL_SOCKET, SO_PEERCRED, value, &mut length) })?;
    Ok(peer)
}

/// Limits the bytes that the kernel keeps for a peer that doesn't read.
pub fn limit_send_buffer(stream: &UnixStream, bytes: i32) -> Result<()> {
    let value = (&raw const bytes).cast();
    let length = size_of::<i32>() as u32;
    // SAFETY: the value is an int of the length told, and lives through the call.
    done(unsafe { setsockopt(stream.as_raw_fd(), SOL_SOCKET, SO_SNDBUF, value, length) })
}

/// Runs a function that makes files, with the permission bits of `mask` kept from them.
pub fn with_umask<T>(mask: u32, make: impl FnOnce() -> T) -> T {
    // SAFETY: umask takes any number and always succeeds.
    let before = unsafe { umask(mask) };
    let made = make();
    // SAFETY: as above.
    unsafe { umask(before) };
    made
}

/// The time since the machine's start, in which it was suspended included.
pub fn since_boot() -> Duration {
    let mut time = TimeSpec::default();
    // SAFETY: the time is a whole timespec that lives through the call.
    let read = done(unsafe { clock_gettime(CLOCK_BOOTTIME, &mut time) });
    read.expect("Linux has this clock");
    Duration::new(time.seconds as u64, time.nanoseconds as u32)
}

/// The user that this process acts as.
pub fn own_user() -> u32 {
    // SAFETY: geteuid takes nothing and always succeeds.
    unsafe { geteuid() }
}

fn done(result: i32) -> Result<()> {
    match result {
        0.. => Ok(()),
        _ => Err(Error::last_os_error()),
    }
}
