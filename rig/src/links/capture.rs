//! Captures by tcpdump at the director: what passes its own device, and what leaves for the client and for each server.
//! Afterwards every checksum is verified, and what left is held against what the director wrote.

use crate::lab::network::{balanced, gateway, server, DEVICE, SERVER_PORT, VIRTUAL, VIRTUAL_PORT};
use crate::lab::{ensure, fail, wait_for, Failure, Lab, Running, SIGTERM};
use crate::links::packet::{self, Packet};
use programs::TCPDUMP;
use std::collections::HashSet;
use std::fs;
use std::path::{Path, PathBuf};
use std::process::Stdio;
use std::time::Duration;

/// How long tcpdump may take to begin or to end.
const PATIENCE: Duration = Duration::from_secs(20);

/// Bytes that are kept of a packet: more than the links carry at once. A packet that is cut can't be verified, and fails.
const SNAPSHOT: &str = "2048";

/// The kernel's buffer for one capture, in KiB.
const BUFFER: &str = "16384";

/// One tcpdump at an interface of the director's namespace.
struct Capture {
    running: Running,
    interface: String,
    file: PathBuf,
    log: PathBuf,
}

impl Capture {
    /// Begins to keep the packets at that interface that fit the filter.
    fn start(lab: &Lab, interface: &str, filter: &str) -> Result<Capture, Failure> {
        Capture::start_as(lab, interface, interface, filter)
    }

    /// The same in files of that name.
    fn start_as(lab: &Lab, name: &str, interface: &str, filter: &str) -> Result<Capture, Failure> {
        let file = lab.run.join(format!("{name}.pcap"));
        let log = lab.run.join(format!("{name}.tcpdump"));
        let mut command = lab.command("director", TCPDUMP);
        // As root: it would otherwise change to a user who can't write here. Immediately: none is left behind at the end.
        command.args(["-n", "-Z", "root", "--immediate-mode", "-s", SNAPSHOT, "-B", BUFFER]);
        command.args(["-i", interface, "-w"]).arg(&file).arg(filter);
        command.stdout(Stdio::null()).stderr(fs::File::create(&log)?);
        let mut running = Running::start(&mut command)?;
        let what = format!("tcpdump listens on {interface}");
        wait_for(&what, PATIENCE, || {
            let said = fs::read_to_string(&log)?;
            ensure(running.is_alive()?, format!("tcpdump ended: {}", said.trim()))?;
            Ok(said.contains("listening on").then_some(()))
        })?;
        Ok(Capture { running, interface: interface.into(), file, log })
    }

    /// Ends it, and tells its packets. A capture that missed any is worth nothing.
    fn finish(self) -> Result<Vec<Packet>, Failure> {
        let interface = self.interface.clone();
        let (packets, met) = self.end()?;
        let words = format!("of {met} packets at {interface} only {} were kept", packets.len());
        ensure(packets.len() == met, words)?;
        Ok(packets)
    }

    /// Ends it. Gives the packets that were kept, and how many there were.
    fn end(mut self) -> Result<(Vec<Packet>, usize), Failure> {
        self.running.signal(SIGTERM)?;
        self.running.wait(PATIENCE)?;
        let said = fs::read_to_string(&self.log)?;
        let number = |what: &str| {
            let line = said.lines().find_map(|line| line.strip_suffix(what));
            line.and_then(|number| number.trim().parse::<usize>().ok())
        };
        let kept = number(" packets captured").or(number(" packet captured"));
        let met = number(" packets received by filter").or(number(" packet received by filter"));
        let dropped = number(" packets dropped by kernel").or(number(" packet dropped by kernel"));
        let (Some(kept), Some(met), Some(dropped)) = (kept, met, dropped) else {
            return fail(format!("tcpdump on {} said: {said}", self.interface));
        };
        let packets = packet::read(&self.file)?;
        let words = format!("tcpdump kept {kept} packets, and its file has {}", packets.len());
        ensure(packets.len() == kept, words)?;
        Ok((packets, met + dropped))
    }
}

/// What tcpdump may need to take the last packet, where it is ended at once.
const REST: Duration = Duration::from_millis(100);

/// Does something, and gives the packets that the director was handed or wrote meanwhile, of those that fit the filter; none where
/// tcpdump has missed one.
pub fn during<T>(
    lab: &Lab,
    filter: &str,
    act: impl FnOnce() -> Result<T, Failure>,
) -> Result<(T, Option<Vec<Packet>>), Failure> {
    let capture = Capture::start_as(lab, "meanwhile", DEVICE, filter)?;
    let done = act()?;
    std::thread::sleep(REST);
    let (packets, met) = capture.end()?;
    let is_whole = packets.len() == met;
    Ok((done, is_whole.then_some(packets)))
}

/// The captures of one drill.
pub struct Captures {
    device: Capture,
    leaving: Vec<Capture>,
    /// Sequence numbers of resets that were forged: their checksums may be wrong.
    pub forged: Vec<u32>,
}

/// What the captures of a drill have shown.
pub struct Captured {
    /// All that the director was handed and all that it wrote, in this order.
    pub device: Vec<Packet>,
    /// How many packets left the director, all with right checksums.
    pub left: usize,
}

impl Captures {
    /// Begins to capture. The director's device is up already.
    pub fn start(lab: &Lab, servers: usize) -> Result<Captures, Failure> {
        let device = Capture::start(lab, DEVICE, "tcp")?;
        // A veth also shows what comes from the other side, by a local TCP: its checksums may be unfinished.
        let to_client = format!("tcp and src host {VIRTUAL} and src port {VIRTUAL_PORT}");
        let mut leaving = vec![Capture::start(lab, "client", &to_client)?];
        for k in 0..servers {
            // what the host itself asks a server is not the director's, as a health check
            let from_clients = format!("tcp and not src host {}", gateway(k));
            let to_server =
                format!("{from_clients} and dst host {} and dst port {SERVER_PORT}", balanced(k));
            leaving.push(Capture::start(lab, &server(k), &to_server)?);
        }
        Ok(Captures { device, leaving, forged: Vec::new() })
    }

    /// Ends the captures. Fails unless at least so many packets left, each with right checksums and as the director wrote
    /// it, and unless a damaged byte is found.
    pub fn finish(self, least: usize) -> Result<Captured, Failure> {
        let mut leaving = Vec::new();
        // The device comes last: it has then seen all that left.
        for capture in self.leaving {
            let (interface, file) = (capture.interface.clone(), capture.file.clone());
            leaving.push((interface, file, capture.finish()?));
        }
        let device = self.device.finish()?;
        check_sums("the director's device", &device, &self.forged)?;
        let written: HashSet<&Packet> =
            device.iter().filter(|packet| packet.is_written()).collect();
        for (interface, file, packets) in &leaving {
            check_sums(interface, packets, &self.forged)?;
            if let Some(stranger) = packets.iter().find(|packet| !written.contains(packet)) {
                return fail(format!(
                    "the director didn't write what left at {interface}: {stranger}"
                ));
            }
            if !packets.is_empty() {
                check_damage_is_found(file, &self.forged)?;
            }
        }
        let left = leaving.iter().map(|(_, _, packets)| packets.len()).sum();
        let words = format!("{left} packets left the director, at least {least} were expected");
        ensure(left >= least, words)?;
        Ok(Captured { device, left })
    }
}

/// Whether a packet's checksums are not right, and it is no forged reset.
fn is_wrong(packet: &Packet, forged: &[u32]) -> bool {
    let is_forged =
        packet.flags == "R" && packet.sequence().is_some_and(|number| forged.contains(&number));
    !packet.sums_are_right() && !is_forged
}

/// Fails with the first packet whose checksums are not right.
fn check_sums(place: &str, packets: &[Packet], forged: &[u32]) -> Result<(), Failure> {
    match packets.iter().find(|packet| is_wrong(packet, forged)) {
        None => Ok(()),
        Some(wrong) => fail(format!("a wrong checksum at {place}: {wrong}")),
    }
}

/// The file's header, a packet's header in it, and the Ethernet header before the IPv4 header.
const FIRST_PACKET: usize = 24 + 16 + 14;

/// Tries the check on a capture of an Ethernet interface with one byte changed: once in the first packet's IPv4 header,
/// once in its TCP part. Each time exactly that packet must be found wrong.
fn check_damage_is_found(file: &Path, forged: &[u32]) -> Result<(), Failure> {
    let good = fs::read(file)?;
    let length = u16::from_be_bytes([good[FIRST_PACKET + 2], good[FIRST_PACKET + 3]]);
    let (time_to_live, last) = (FIRST_PACKET + 8, FIRST_PACKET + usize::from(length) - 1);
    for place in [time_to_live, last] {
        let mut bytes = good.clone();
        bytes[place] ^= 0xFF;
        let damaged = file.with_extension("damaged");
        fs::write(&damaged, bytes)?;
        let packets = packet::read(&damaged)?;
        let wrong: Vec<usize> =
            (0..packets.len()).filter(|&k| is_wrong(&packets[k], forged)).collect();
        let words = format!(
            "byte {place} of {} was changed, and packets {wrong:?} found wrong",
            file.display()
        );
        ensure(wrong == [0], words)?;
        fs::remove_file(&damaged)?;
    }
    Ok(())
}
