//! Signals that must not end the daemon.

use crate::daemon::send_signals;
use crate::rig::Rig;
use std::sync::atomic::{AtomicBool, Ordering};

/// By the names that `kill` knows; a number is a real-time signal.
const IGNORED: [&str; 15] = [
    "USR1", "USR2", "PIPE", "ALRM", "STKFLT", "TTOU", "XCPU", "XFSZ", "VTALRM", "PROF", "IO",
    "PWR", "34", "40", "64",
];

/// The signal that interrupts the packet thread is nobody's secret: sent from outside it does nothing.
pub fn interrupts(rig: &mut Rig) {
    for _ in 0..50 {
        rig.daemon.signal_threads("URG");
        rig.must_serve();
    }
}

/// Each is told by its name, and the daemon serves on.
pub fn ignored(rig: &mut Rig) {
    for name in IGNORED {
        let told = match name.parse::<u32>() {
            Ok(number) => format!("signal {number}"),
            Err(_) => format!("SIG{name}"),
        };
        rig.daemon.signal(name);
        rig.daemon.await_log(&format!("<6>nidhaagufd: {told} is ignored\n"));
        rig.must_serve();
    }
}

/// Signals without a pause, real-time ones among them, which wait in a queue: packets pass meanwhile.
pub fn flood(rig: &mut Rig) {
    let stop = AtomicBool::new(false);
    let process = rig.daemon.process().to_string();
    let receivers = vec![process.as_str(); 200];
    let floods: usize = std::thread::scope(|scope| {
        let flooder = scope.spawn(|| {
            let names = ["USR1", "40", "HUP"].iter().cycle();
            let sent = names.take_while(|_| !stop.load(Ordering::Relaxed));
            sent.map(|name| send_signals(name, &receivers)).count()
        });
        for _ in 0..50 {
            rig.must_serve();
        }
        stop.store(true, Ordering::Relaxed);
        flooder.join().unwrap()
    });
    assert!(floods > 3, "only {floods} times 200 signals");
    rig.must_serve();
}
