//! The configuration read anew while the daemon serves.

use crate::daemon::{output, Outcome};
use crate::model::CONFIG;
use crate::place::control;
use crate::rig::Rig;
use std::fs;
use std::io::{self, BufRead, BufReader, Write};
use std::os::fd::AsRawFd;
use std::os::unix::fs::symlink;

fn write_config(rig: &Rig, text: &str) {
    fs::write(rig.place.file("nidhaaguf.conf"), text).unwrap();
}

/// As an operator reloads.
fn reload(rig: &Rig) -> Outcome {
    output(control().args(["--socket", &rig.daemon.socket, "reload"]))
}

/// By command and by signal. A watch goes on over it and shows the new weight.
pub fn changed_weights(rig: &mut Rig) {
    let mut watch = rig.daemon.connect();
    watch.write_all(b"watch\n").unwrap();
    let mut watched = BufReader::new(watch).lines().map_while(Result::ok);
    assert!(watched.any(|line| line.ends_with("2       0            0     0         in service")));
    write_config(rig, &CONFIG.replace("weight 2", "weight 7"));
    let change = "server 0 (10.1.0.5:6432): weight 2 -> 7";
    assert_eq!(reload(rig), (Some(0), format!("{change}\n"), String::new()));
    rig.model.set_weight(0, 7);
    rig.daemon.await_log(&format!("<5>nidhaagufd: {change}, by reload of user 0\n"));
    assert!(watched.any(|line| line.ends_with("7       0            0     0         in service")));
    rig.must_serve();
    write_config(rig, CONFIG);
    rig.daemon.signal("HUP");
    rig.daemon.await_log("server 0 (10.1.0.5:6432): weight 7 -> 2, by reload\n");
    rig.model.set_weight(0, 2);
    assert!(watched.any(|line| line.ends_with("2       0            0     0         in service")));
    rig.must_serve();
}

/// A file that hasn't changed changes nothing: what was drained by a command stays drained.
pub fn unchanged_file(rig: &mut Rig) {
    rig.set_weight(1, 0);
    assert_eq!(reload(rig), (Some(0), "nothing has changed\n".into(), String::new()));
    rig.daemon.await_log("<5>nidhaagufd: reload of user 0: nothing has changed\n");
    rig.daemon.signal("HUP");
    rig.daemon.await_log("<5>nidhaagufd: reload: nothing has changed\n");
    rig.check();
    rig.set_weight(1, 1);
}

/// What can't be applied changes nothing, not the weight beside it either, and is told to who asks and in the log.
pub fn bad_files(rig: &mut Rig) {
    let other = CONFIG.replace("weight 2", "weight 7");
    let restart = "needs a restart, which forgets all connections; nothing was changed";
    for (text, words) in [
        (other.replace("weighted-round-robin", "rr"), " line 2: expected a scheduler: "),
        (
            other.replace("64", "65"),
            &format!(" line 3: another number of slots (65 instead of 64) {restart}"),
        ),
        (
            other.replace("10.2.0.5", "10.3.0.5"),
            &format!(
                " line 5: another server 1 (10.3.0.5:6432 instead of 10.2.0.5:6432) {restart}"
            ),
        ),
    ] {
        write_config(rig, &text);
        must_refuse(rig, words);
    }
    let path = rig.place.file("nidhaaguf.conf");
    fs::remove_file(&path).unwrap();
    must_refuse(rig, ": can't be opened: ");
    // a pipe that nobody writes to
    let (pipe, _other_end) = io::pipe().unwrap();
    let own = format!("/proc/{}/fd/{}", std::process::id(), pipe.as_raw_fd());
    symlink(own, &path).unwrap();
    must_refuse(rig, ": can't be opened: a reload takes a regular file; nothing was changed");
}

fn must_refuse(rig: &mut Rig, words: &str) {
    let complaint = format!("{}{words}", rig.place.file("nidhaaguf.conf"));
    let (code, out, log) = reload(rig);
    assert_eq!((code, out.as_str()), (Some(1), ""));
    assert!(log.starts_with(&format!("nidhaagufctl: {complaint}")), "{log}");
    rig.daemon.signal("HUP");
    rig.daemon.await_log(&format!("<3>nidhaagufd: reload: {complaint}"));
    rig.check();
    rig.must_serve();
}
