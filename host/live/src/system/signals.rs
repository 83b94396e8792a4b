//! Signals: those that would end the process are read from a file instead, and one interrupts a thread.

use crate::system::done;
use std::fmt;
use std::fs::File;
use std::io::{Error, Read, Result};
use std::os::fd::{AsRawFd, FromRawFd, OwnedFd, RawFd};
use std::os::unix::thread::{JoinHandleExt, RawPthread};
use std::thread::JoinHandle;

/// The signal that interrupts a thread. A process that doesn't take it ignores it, so it can't end this one, whoever sends
/// it and whenever.
const SIGURG: i32 = 23;

/// The signals that are read, beside the real-time ones: all that a process may ignore and that would end it, and SIGTTOU,
/// which would stop it when it writes to a terminal from the background. Faults go on ending it.
const NAMES: [(i32, &str); 16] = [
    (1, "SIGHUP"),
    (2, "SIGINT"),
    (3, "SIGQUIT"),
    (10, "SIGUSR1"),
    (12, "SIGUSR2"),
    (13, "SIGPIPE"),
    (14, "SIGALRM"),
    (15, "SIGTERM"),
    (16, "SIGSTKFLT"),
    (22, "SIGTTOU"),
    (24, "SIGXCPU"),
    (25, "SIGXFSZ"),
    (26, "SIGVTALRM"),
    (27, "SIGPROF"),
    (29, "SIGIO"),
    (30, "SIGPWR"),
];
/// The real-time signals that the C library leaves to programs.
const REAL_TIME: std::ops::RangeInclusive<i32> = 34..=64;

const SIG_BLOCK: i32 = 0;
const SFD_NONBLOCK_CLOEXEC: i32 = 0o4000 | 0o2_000_000;
/// The length of C's `struct signalfd_siginfo`, and how many are read at once.
const INFORMATION: usize = 128;
const READ_AT_ONCE: usize = 64;

/// C's `sigset_t`.
#[repr(C)]
struct SignalSet([u64; 16]);

/// C's `struct sigaction`.
#[repr(C)]
struct SignalAction {
    handler: extern "C" fn(i32),
    mask: SignalSet,
    flags: i32,
    restorer: usize,
}

extern "C" {
    fn sigemptyset(set: *mut SignalSet) -> i32;
    fn sigaddset(set: *mut SignalSet, signal: i32) -> i32;
    fn pthread_sigmask(how: i32, set: *const SignalSet, old: *mut SignalSet) -> i32;
    fn sigaction(signal: i32, action: *const SignalAction, old: *mut SignalAction) -> i32;
    fn pthread_kill(thread: RawPthread, signal: i32) -> i32;
    fn signalfd(descriptor: i32, set: *const SignalSet, flags: i32) -> i32;
}

/// A signal, by its number.
#[derive(Clone, Copy, Debug, PartialEq, Eq)]
pub struct Signal(pub i32);

/// What a signal asks for.
#[derive(Clone, Copy, Debug, PartialEq, Eq)]
pub enum Meaning {
    /// To end: SIGINT, SIGQUIT and SIGTERM.
    End,
    /// To read the configuration anew: SIGHUP.
    Reload,
    /// Nothing.
    Nothing,
}

impl Signal {
    /// What it asks for.
    pub fn meaning(self) -> Meaning {
        match self.0 {
            1 => Meaning::Reload,
            2 | 3 | 15 => Meaning::End,
            _ => Meaning::Nothing,
        }
    }
}

impl fmt::Display for Signal {
    fn fmt(&self, out: &mut fmt::Formatter<'_>) -> fmt::Result {
        match NAMES.iter().find(|(number, _)| *number == self.0) {
            Some((_, name)) => out.write_str(name),
            None => write!(out, "signal {}", self.0),
        }
    }
}

/// The signals that don't end the process, since they are read.
#[derive(Debug)]
pub struct Signals(File);

impl Signals {
    /// Takes them, from this thread and those that it starts.
    pub fn take() -> Result<Signals> {
        let mut set = SignalSet([0; 16]);
        let numbers = NAMES.iter().map(|(number, _)| *number).chain(REAL_TIME);
        // SAFETY: the set is a whole sigset_t that lives through the calls; the old mask isn't asked for; the descriptor that
        // a success gives is new and nobody else's.
        unsafe {
            sigemptyset(&mut set);
            for number in numbers {
                sigaddset(&mut set, number);
            }
            match pthread_sigmask(SIG_BLOCK, &set, std::ptr::null_mut()) {
                0 => {}
                number => return Err(Error::from_raw_os_error(number)),
            }
            let descriptor = signalfd(-1, &set, SFD_NONBLOCK_CLOEXEC);
            done(descriptor)?;
            Ok(Signals(File::from(OwnedFd::from_raw_fd(descriptor))))
        }
    }

    /// Those that have come, each once. It never waits, and what doesn't fit a read is left for the next.
    pub fn read(&self) -> Vec<Signal> {
        let mut bytes = [0; INFORMATION * READ_AT_ONCE];
        // an error says that none has come
        let length = (&self.0).read(&mut bytes).unwrap_or(0);
        let mut signals = Vec::new();
        for information in bytes[..length].chunks_exact(INFORMATION) {
            let field = |at: usize| [0, 1, 2, 3].map(|byte| information[at + byte]);
            let (signal, process) = (i32::from_ne_bytes(field(0)), u32::from_ne_bytes(field(12)));
            // its own are of its writes to those that have gone (SIGPIPE), and a line of the log about one could bring another
            if process != std::process::id() && !signals.contains(&Signal(signal)) {
                signals.push(Signal(signal));
            }
        }
        signals
    }
}

impl AsRawFd for Signals {
    fn as_raw_fd(&self) -> RawFd {
        self.0.as_raw_fd()
    }
}

/// Lets [`interrupt`] end what a thread waits for: by a handler that does nothing, and after which no call is begun anew.
pub fn take_interrupts() -> Result<()> {
    extern "C" fn nothing(_signal: i32) {}
    let action = SignalAction { handler: nothing, mask: SignalSet([0; 16]), flags: 0, restorer: 0 };
    // SAFETY: the action is a whole sigaction that lives through the call, and its handler touches nothing; the old one isn't
    // asked for.
    done(unsafe { sigaction(SIGURG, &action, std::ptr::null_mut()) })
}

/// Ends a read or a wait that the thread is in now, as interrupted. A thread that isn't in one, or that has ended, doesn't
/// notice.
pub fn interrupt<T>(thread: &JoinHandle<T>) {
    // SAFETY: there is a handle of the thread, so it was neither joined nor detached, and its number is its own.
    unsafe { pthread_kill(thread.as_pthread_t(), SIGURG) };
}
