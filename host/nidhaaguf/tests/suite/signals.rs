//! A signal ends a serve that waits.

use crate::support::settings;
use nidhaaguf::{Counters, Director, End, Served, Trace};
use std::io::ErrorKind;
use std::os::unix::net::UnixDatagram;
use std::sync::mpsc;
use std::thread;
use std::time::Duration;

const SIGUSR1: i32 = 10;

extern "C" {
    fn signal(number: i32, handler: extern "C" fn(i32)) -> usize;
    fn siginterrupt(number: i32, interrupts: i32) -> i32;
    fn pthread_self() -> usize;
    fn pthread_kill(thread: usize, number: i32) -> i32;
}

extern "C" fn nothing(_: i32) {}

fn wait_for_a_packet(device: &UnixDatagram) -> Served {
    let mut director = Director::set_up(&settings(1), 1).unwrap();
    director.serve(device, &mut Trace::new(1), &mut Counters::new(), 1, 1, None).unwrap()
}

#[test]
fn a_signal_ends_the_wait() {
    // SAFETY: a handler that does nothing, and reads that it interrupts.
    unsafe {
        signal(SIGUSR1, nothing);
        siginterrupt(SIGUSR1, 1);
    }
    let (device, _other_end) = UnixDatagram::pair().unwrap();
    let (tell, told) = mpsc::channel();
    let waiting = thread::spawn(move || {
        // SAFETY: tells which thread this is.
        tell.send(unsafe { pthread_self() }).unwrap();
        wait_for_a_packet(&device)
    });
    let thread = told.recv().unwrap();
    // repeated: one that comes just before the read doesn't interrupt it
    while !waiting.is_finished() {
        // SAFETY: the thread isn't joined yet, so there still is one of this number.
        unsafe { pthread_kill(thread, SIGUSR1) };
        thread::sleep(Duration::from_millis(2));
    }
    let served = waiting.join().unwrap();
    let End::Failed(error) = served.end else { panic!("{served:?}") };
    assert_eq!((error.kind(), served.taken), (ErrorKind::Interrupted, 0));
}
