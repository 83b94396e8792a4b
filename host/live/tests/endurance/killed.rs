//! Take-overs in which a process is killed or stopped.

use crate::daemon::{output, wait_until, Daemon};
use crate::link::Link;
use crate::model::{CONFIG, SLOTS, VIRTUAL};
use crate::place::{command, control};
use crate::rig::Rig;
use crate::stand_ins::{await_clients, request, take_all};
use live::handover::take::{take, Taken};
use live::handover::PATIENCE;
use reference::packets::{tcp, ACK};
use std::fs::File;
use std::io::Read;
use std::os::unix::net::UnixStream;
use std::path::Path;
use std::thread;
use std::time::Duration;

/// The new one is stopped while it waits for the old one, and goes on later: nothing is lost by that.
pub fn stopped_taker() {
    let mut rig = Rig::start("stopped-taker");
    let openings = rig.openings(5);
    rig.send(&openings);
    rig.daemon.stop();
    let next = command(&rig.place, CONFIG, "nid0", &["--take-over"]).spawn().unwrap();
    let mut next = Daemon::of_child(next, &rig.place);
    await_clients(&rig, 1);
    next.stop();
    next.signal("CONT");
    rig.daemon.signal("CONT");
    next.await_ready();
    let (code, _, log) = std::mem::replace(&mut rig.daemon, next).wait();
    assert_eq!(code, Some(0), "{log}");
    rig.check();
    rig.end_all();
}

/// New processes that are killed sooner or later: the old one serves on, unless it has handed all over by then.
pub fn takers() {
    let (mut served_on, mut handed_over) = (0, 0);
    for delay in (0..40).map(|number| Duration::from_micros(150 * number)) {
        let mut rig = Rig::start("killed");
        let openings = rig.openings(5);
        rig.send(&openings);
        let next = command(&rig.place, CONFIG, "nid0", &["--take-over"]).spawn().unwrap();
        let next = Daemon::of_child(next, &rig.place);
        thread::sleep(delay);
        next.kill();
        let (code, ..) = output(control().args(["--socket", &rig.daemon.socket, "status"]));
        if code == Some(0) {
            rig.check();
            rig.end_all();
            served_on += 1;
        } else {
            let (code, _, log) = rig.daemon.wait();
            assert_eq!(code, Some(0), "{log}");
            assert!(log.contains("<5>nidhaagufd: handed 5 connections over to process "), "{log}");
            handed_over += 1;
        }
    }
    assert!(served_on > 0, "{served_on} {handed_over}");
}

/// The old one is killed before it has sent anything: there is nothing to take over.
pub fn before_it_sends() {
    let rig = Rig::start("killed-early");
    rig.daemon.stop();
    let socket = rig.daemon.socket.clone();
    let taker = thread::spawn(move || take(Path::new(&socket), request()).map(|_| ()));
    await_clients(&rig, 1);
    rig.daemon.signal("KILL");
    let complaint = taker.join().unwrap().unwrap_err();
    assert!(complaint.contains(" hands nothing over: "), "{complaint}");
}

/// The old one is killed after it has sent all: who has it may serve, and the device is still there.
pub fn after_it_has_sent() {
    let rig = Rig::start("killed-late");
    let Taken { device, listener, snapshot, giver } = take_all(&rig);
    let Rig { daemon, link, place, .. } = rig;
    daemon.signal("KILL");
    assert_eq!(daemon.wait().0, None);
    assert_eq!(giver.serve(), Ok(()));
    must_reach(&link, &mut File::from(device));
    assert_eq!(snapshot.row.len(), 5 * SLOTS);
    let _client = UnixStream::connect(place.file("sock")).unwrap();
    wait_until("a client is let in", || listener.accept().is_ok());
}

/// What is sent into the device comes to who has it open.
fn must_reach(link: &Link, device: &mut File) {
    let packet = tcp((0x0A00_0001, 9), VIRTUAL, ACK).build();
    link.send(&packet);
    let mut bytes = [0; 100];
    let length = device.read(&mut bytes).unwrap();
    assert_eq!(bytes[..length], packet);
}

/// The old one is stopped while it waits for the answer, and goes on later, as under a debugger or in a machine that is
/// suspended: since the other one was told nothing else, that one serves, and the old one doesn't serve on.
pub fn stopped_while_it_waits() {
    let deeds: [fn(&Daemon); 3] = [
        Daemon::stop,
        |daemon| {
            daemon.stop();
            // when it goes on, the time to wait is over
            thread::sleep(PATIENCE + Duration::from_millis(500));
        },
        |daemon| {
            daemon.stop();
            daemon.signal("CONT");
            daemon.await_state('S');
        },
    ];
    for deed in deeds {
        let rig = Rig::start("stopped");
        let Taken { device, giver, .. } = take_all(&rig);
        deed(&rig.daemon);
        assert_eq!(giver.serve(), Ok(()));
        let Rig { daemon, link, place, .. } = rig;
        daemon.signal("CONT");
        let (code, _, log) = daemon.wait();
        assert_eq!(code, Some(0), "{log}");
        assert!(log.contains("<5>nidhaagufd: handed 0 connections over to process "), "{log}");
        must_reach(&link, &mut File::from(device));
        assert!(Path::new(&place.file("sock")).exists());
    }
}
