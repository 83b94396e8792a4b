//! Open files that are passed from one process to another over a Unix socket.

use super::SOL_SOCKET;
use std::ffi::c_void;
use std::io::{Error, ErrorKind, Result};
use std::mem::size_of;
use std::os::fd::{AsRawFd, BorrowedFd, FromRawFd, OwnedFd};
use std::os::unix::net::UnixStream;

/// So many files are passed at once.
const FILES: usize = 3;

const SCM_RIGHTS: i32 = 1;
const MSG_NOSIGNAL: i32 = 0x4000;
const MSG_CMSG_CLOEXEC: i32 = 0x4000_0000;

/// C's `struct iovec`.
#[repr(C)]
struct Part {
    bytes: *mut c_void,
    length: usize,
}

/// C's `struct msghdr`.
#[repr(C)]
struct Message {
    name: *mut c_void,
    name_length: u32,
    parts: *mut Part,
    number: usize,
    control: *mut c_void,
    control_length: usize,
    flags: i32,
}

/// C's `struct cmsghdr`, with the descriptors after it.
#[repr(C)]
#[derive(Default)]
struct Rights {
    length: usize,
    level: i32,
    kind: i32,
    files: [i32; FILES],
    /// The kernel counts in eights.
    padding: i32,
}

/// Of a header without descriptors.
const HEADER: usize = 16;

extern "C" {
    fn sendmsg(descriptor: i32, message: *const Message, flags: i32) -> isize;
    fn recvmsg(descriptor: i32, message: *mut Message, flags: i32) -> isize;
}

/// Sends bytes, and the files with them; tells how many bytes went.
pub fn send(stream: &UnixStream, bytes: &[u8], files: [BorrowedFd<'_>; FILES]) -> Result<usize> {
    let files = files.map(|file| file.as_raw_fd());
    let length = HEADER + FILES * size_of::<i32>();
    let mut rights = Rights { length, level: SOL_SOCKET, kind: SCM_RIGHTS, files, padding: 0 };
    let mut part = Part { bytes: bytes.as_ptr().cast_mut().cast(), length: bytes.len() };
    let message = message(&mut part, &mut rights);
    // SAFETY: the message's part is a slice, and its control bytes are a whole struct; both live through the call, which only
    // reads them.
    uninterrupted(|| unsafe { sendmsg(stream.as_raw_fd(), &message, MSG_NOSIGNAL) })
}

/// Receives bytes, and the files that came with them; tells how many bytes came.
pub fn receive(stream: &UnixStream, bytes: &mut [u8]) -> Result<(usize, Vec<OwnedFd>)> {
    let mut rights = Rights::default();
    let mut part = Part { bytes: bytes.as_mut_ptr().cast(), length: bytes.len() };
    let mut message = message(&mut part, &mut rights);
    // SAFETY: the message's part is a slice, and its control bytes are a whole struct; both are lent for the call.
    let receive = || unsafe { recvmsg(stream.as_raw_fd(), &mut message, MSG_CMSG_CLOEXEC) };
    let length = uninterrupted(receive)?;
    let told = message.control_length >= HEADER;
    let are_files = told && (rights.level, rights.kind) == (SOL_SOCKET, SCM_RIGHTS);
    let number = if are_files { (rights.length - HEADER) / size_of::<i32>() } else { 0 };
    // SAFETY: the kernel has made these descriptors for this process, and nobody else knows them.
    let owned = |&file: &i32| unsafe { OwnedFd::from_raw_fd(file) };
    Ok((length, rights.files[..number.min(FILES)].iter().map(owned).collect()))
}

fn message(part: &mut Part, rights: &mut Rights) -> Message {
    Message {
        name: std::ptr::null_mut(),
        name_length: 0,
        parts: part,
        number: 1,
        control: (&raw mut *rights).cast(),
        control_length: size_of::<Rights>(),
        flags: 0,
    }
}

/// Makes a call again that was interrupted, as in a process that was stopped and goes on; tells its number of bytes.
fn uninterrupted(mut call: impl FnMut() -> isize) -> Result<usize> {
    loop {
        match usize::try_from(call()).map_err(|_| Error::last_os_error()) {
            Err(error) if error.kind() == ErrorKind::Interrupted => {}
            done => return done,
        }
    }
}
