//! The thread that serves the packets: its director is had back at any time, and comes to no harm.

use crate::support::*;
use live::packet_thread::PacketThread;
use live::system;
use nidhaaguf::Way;
use std::fs::OpenOptions;
use std::os::unix::net::UnixDatagram;
use std::sync::mpsc;
use std::time::Duration;

/// Long enough for a busy machine; nothing waits so long where all is well.
const PATIENCE: Duration = Duration::from_secs(30);

/// Does something that may wait forever where there is a mistake.
fn in_time(work: impl FnOnce() + Send + 'static) {
    let (done, waits) = mpsc::channel();
    let thread = std::thread::spawn(move || {
        work();
        let _ = done.send(());
    });
    match waits.recv_timeout(PATIENCE) {
        Err(mpsc::RecvTimeoutError::Timeout) => panic!("it doesn't come to its end"),
        _ => thread.join().unwrap(),
    }
}

/// A thread whose device is one end of a pair of sockets; the other end.
fn thread_on_pair() -> (PacketThread, UnixDatagram) {
    let (link, device) = UnixDatagram::pair().unwrap();
    link.set_read_timeout(Some(PATIENCE)).unwrap();
    (PacketThread::start(device, "pair").unwrap(), link)
}

/// Taken back as soon as it is lent, so that the first signal comes before the read: it has to be sent again.
#[test]
fn a_signal_before_the_read_is_not_the_last() {
    in_time(|| {
        let (mut packets, _link) = thread_on_pair();
        let mut instance = instance();
        for _ in 0..1_000 {
            packets.lend(instance);
            let (back, served) = packets.take_back();
            assert_eq!(served, Ok(()));
            instance = back;
        }
    });
}

/// Taken back while the read waits; what was served by then is there, and what comes later is served too: more packets than
/// one call takes.
#[test]
fn packets_are_served_before_and_after() {
    in_time(|| {
        let (mut packets, link) = thread_on_pair();
        let must_serve = |port| {
            link.send(&syn(port)).unwrap();
            assert_eq!(link.recv(&mut [0; 100]).unwrap(), syn(port).len());
        };
        packets.lend(instance());
        for port in 1..=20 {
            must_serve(port);
            let (instance, served) = packets.take_back();
            assert_eq!((instance.director().used(), served), (u32::from(port), Ok(())));
            packets.lend(instance);
        }
        (1..=1_000).for_each(must_serve);
        assert_eq!(packets.take_back().0.director().used(), 1_000);
    });
}

/// A device that always has a packet: no read waits, so no signal ends one, and the director is had all the same. And who
/// always wants it doesn't stop the packets: some pass each time that it is lent.
#[test]
fn a_flood_does_not_keep_the_director() {
    in_time(|| {
        let device = OpenOptions::new().read(true).write(true).open("/dev/zero").unwrap();
        let mut packets = PacketThread::start(device, "zero").unwrap();
        let mut instance = instance();
        let mut before = 0;
        for _ in 0..20 {
            packets.lend(instance);
            instance = packets.take_back().0;
            let after = instance.counters().packets.taken(Way::Outbound);
            assert!(after > before);
            before = after;
        }
    });
}

/// The thread ends and says so, also to one that only waits for its end; the director isn't lost.
#[test]
fn a_device_that_is_gone_ends_it() {
    in_time(|| {
        let device = OpenOptions::new().write(true).open("/dev/null").unwrap();
        let mut packets = PacketThread::start(device, "null").unwrap();
        packets.lend(instance());
        let mut end = [packets.waited()];
        system::wait(&mut end, PATIENCE).unwrap();
        assert!(end[0].is_ready());
        let (instance, served) = packets.take_back();
        let complaint = served.unwrap_err();
        assert!(
            complaint.starts_with("the device null is gone: Bad file descriptor"),
            "{complaint}"
        );
        assert_eq!(instance.director().used(), 0);
    });
}

/// Nothing is told of its end while it serves.
#[test]
fn a_thread_that_serves_has_not_ended() {
    in_time(|| {
        let (mut packets, _link) = thread_on_pair();
        packets.lend(instance());
        let mut end = [packets.waited()];
        system::wait(&mut end, Duration::from_millis(20)).unwrap();
        assert!(!end[0].is_ready());
    });
}
