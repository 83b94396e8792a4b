//! The control socket: a file that only the daemon's user can open.

use crate::system;
use std::fs;
use std::io::{self, ErrorKind, Write};
use std::os::fd::{AsFd, AsRawFd, BorrowedFd, RawFd};
use std::os::unix::fs::{FileTypeExt, MetadataExt};
use std::os::unix::net::{UnixListener, UnixStream};
use std::path::{Path, PathBuf};

/// All but reading and writing by the owner is kept from the file.
const OWNER_ONLY: u32 = 0o177;

/// Bytes that the kernel is asked to keep for a peer that doesn't read (it doubles them).
const SEND_BUFFER: i32 = 4_096;

/// A listening control socket. Its file goes when this does.
#[derive(Debug)]
pub struct Socket {
    listener: UnixListener,
    path: PathBuf,
    /// What tells its file from another that later has its name; None where the file is no matter of this process.
    identity: Option<(u64, u64)>,
}

/// Who has connected, by its user.
#[derive(Debug)]
pub enum Peer {
    /// It may command the director.
    Allowed(UnixStream, u32),
    /// It may not, and was turned away.
    TurnedAway(u32),
}

impl Socket {
    /// Makes the socket at that path, in place of one that nobody answers any more.
    pub fn open(path: &Path) -> Result<Socket, String> {
        let complaint = |what: &str| format!("the control socket {}: {what}", path.display());
        remove_stale(path).map_err(|what| complaint(&what))?;
        let bound = || {
            // the mode must be right from the first moment, so it can't be set after
            let listener = system::with_umask(OWNER_ONLY, || UnixListener::bind(path))?;
            listener.set_nonblocking(true)?;
            Ok((listener, identity(path)?))
        };
        let (listener, identity) =
            bound().map_err(|error: io::Error| complaint(&format!("it can't be made: {error}")))?;
        Ok(Socket { listener, path: path.to_path_buf(), identity: Some(identity) })
    }

    /// A socket at that path that another process has made, and leaves to this one.
    pub fn adopt(listener: UnixListener, path: &Path) -> Socket {
        let identity = identity(path).ok();
        Socket { listener, path: path.to_path_buf(), identity }
    }

    /// Leaves the file to another process: it stays when this socket goes.
    pub fn leave(&mut self) {
        self.identity = None;
    }

    /// The next connection. It never waits.
    pub fn accept(&self) -> io::Result<Peer> {
        let (mut stream, _) = self.listener.accept()?;
        stream.set_nonblocking(true)?;
        let (user, own) = (system::peer(&stream)?.user, system::own_user());
        // the file's mode keeps others out already, as long as nobody changes it
        if user != own && user != 0 {
            let reply = format!("error: only user {own} and root may command this director\n");
            // it is told if it reads; it is turned away in any case
            let _ = stream.write(reply.as_bytes());
            return Ok(Peer::TurnedAway(user));
        }
        system::limit_send_buffer(&stream, SEND_BUFFER)?;
        Ok(Peer::Allowed(stream, user))
    }
}

/// Removes a socket that nobody listens on; any other file stays, and is an error.
fn remove_stale(path: &Path) -> Result<(), String> {
    match fs::symlink_metadata(path) {
        Err(error) if error.kind() == ErrorKind::NotFound => return Ok(()),
        Err(error) => return Err(error.to_string()),
        Ok(found) if !found.file_type().is_socket() => {
            return Err("a file that isn't a socket is there already".into());
        }
        Ok(_) => {}
    }
    match UnixStream::connect(path) {
        Ok(_) => Err("another director answers there".into()),
        Err(error) if error.kind() == ErrorKind::ConnectionRefused => {
            fs::remove_file(path).map_err(|error| format!("the old one can't be removed: {error}"))
        }
        Err(error) => Err(error.to_string()),
    }
}

fn identity(path: &Path) -> io::Result<(u64, u64)> {
    fs::symlink_metadata(path).map(|found| (found.dev(), found.ino()))
}

impl Drop for Socket {
    fn drop(&mut self) {
        if self.identity.is_some() && identity(&self.path).ok() == self.identity {
            // nothing more can be done about it at the end
            let _ = fs::remove_file(&self.path);
        }
    }
}

impl AsFd for Socket {
    fn as_fd(&self) -> BorrowedFd<'_> {
        self.listener.as_fd()
    }
}

impl AsRawFd for Socket {
    fn as_raw_fd(&self) -> RawFd {
        self.listener.as_raw_fd()
    }
}
