//! The thread that serves the packets. It holds the director while it waits for a packet, in the library's own loop; who
//! wants the director takes it back between two calls of the library, and lends it again.
//!
//! To take it back, a flag is set and the thread is sent a signal, which ends a read that waits. A signal that comes just
//! before the read ends nothing, so it is sent again until the director is there. Where packets come without a pause no
//! read waits: then the call ends by its number of packets.

use crate::instance::Instance;
use crate::system::{signals, Waited};
use nidhaaguf::{End, Trace};
use std::io::{self, ErrorKind, PipeReader, PipeWriter};
use std::os::fd::{AsFd, BorrowedFd, OwnedFd};
use std::sync::atomic::{AtomicBool, Ordering};
use std::sync::mpsc::{self, Receiver, RecvTimeoutError, SyncSender};
use std::sync::Arc;
use std::thread::{Builder, JoinHandle};
use std::time::Duration;

/// Packets that one call takes at most: who wants the director waits no longer than these take.
const PACKETS_A_CALL: u32 = 256;
/// Between two signals.
const BETWEEN_SIGNALS: Duration = Duration::from_micros(200);

/// The director as it comes back; an error says why the thread serves no more, and has ended.
pub type Returned = (Instance, Result<(), String>);

/// A thread that serves the packets of a device.
#[derive(Debug)]
pub struct PacketThread {
    thread: JoinHandle<()>,
    device: Arc<OwnedFd>,
    lent: SyncSender<Instance>,
    returned: Receiver<Returned>,
    wanted: Arc<AtomicBool>,
    end: PipeReader,
}

impl PacketThread {
    /// Starts it, for the device of that name; it waits until it is lent a director.
    pub fn start(device: impl Into<OwnedFd>, name: &str) -> Result<PacketThread, String> {
        let start = || -> io::Result<PacketThread> {
            signals::take_interrupts()?;
            let (lent, director) = mpsc::sync_channel(1);
            let (back, returned) = mpsc::sync_channel(1);
            let (end, other_end) = io::pipe()?;
            let wanted = Arc::new(AtomicBool::new(false));
            let device = Arc::new(device.into());
            let worker = Worker {
                device: device.clone(),
                name: name.to_string(),
                lent: director,
                returned: back,
                wanted: wanted.clone(),
                _end: other_end,
            };
            let thread = Builder::new().name("packets".into()).spawn(|| worker.run())?;
            Ok(PacketThread { thread, device, lent, returned, wanted, end })
        };
        start().map_err(|error| format!("the packet thread can't be started: {error}"))
    }

    /// Lends it a director, which it serves at once.
    pub fn lend(&mut self, instance: Instance) {
        self.wanted.store(false, Ordering::SeqCst);
        self.lent.send(instance).expect("the thread waits for it");
    }

    /// Has the director back that it was lent.
    pub fn take_back(&mut self) -> Returned {
        self.wanted.store(true, Ordering::SeqCst);
        loop {
            signals::interrupt(&self.thread);
            match self.returned.recv_timeout(BETWEEN_SIGNALS) {
                Ok(returned) => return returned,
                Err(RecvTimeoutError::Timeout) => {}
                Err(RecvTimeoutError::Disconnected) => panic!("the packet thread has panicked"),
            }
        }
    }

    /// Its device. Who reads it while the thread has a director takes packets from that.
    pub fn device(&self) -> BorrowedFd<'_> {
        self.device.as_fd()
    }

    /// What to wait for to be told of its end.
    pub fn waited(&self) -> Waited {
        Waited::new(&self.end, true, false)
    }
}

/// What the thread has.
struct Worker {
    device: Arc<OwnedFd>,
    name: String,
    lent: Receiver<Instance>,
    returned: SyncSender<Returned>,
    wanted: Arc<AtomicBool>,
    /// Closed when the thread ends, also by a panic: so the other end is told.
    _end: PipeWriter,
}

impl Worker {
    fn run(self) {
        let mut trace = Trace::new(PACKETS_A_CALL as usize);
        // until nobody lends any more
        for mut instance in &self.lent {
            let served = self.serve(&mut instance, &mut trace);
            let has_failed = served.is_err();
            if self.returned.send((instance, served)).is_err() || has_failed {
                return;
            }
        }
    }

    /// Serves until the director is wanted, and for one call at least: so commands without a pause don't stop the packets.
    fn serve(&self, instance: &mut Instance, trace: &mut Trace) -> Result<(), String> {
        loop {
            let served = instance
                .serve(&self.device, trace, PACKETS_A_CALL)
                .map_err(|refusal| format!("the library serves no more: {refusal}"))?;
            match served.end {
                End::Most => {}
                // the director is wanted, or somebody else has sent the signal
                End::Failed(error) if error.kind() == ErrorKind::Interrupted => {}
                End::Failed(error) => return Err(self.gone(&error.to_string())),
                End::Empty => return Err(self.gone("it gives packets without a byte")),
            }
            if self.wanted.load(Ordering::SeqCst) {
                return Ok(());
            }
        }
    }

    fn gone(&self, reason: &str) -> String {
        format!("the device {} is gone: {reason}", self.name)
    }
}
