//! The ways from the client to the replicas, each set up alone and taken down again: nothing of another way is there meanwhile.

use super::fill;
use super::haproxy::{self, Haproxy};
use super::load::Kind;
use super::nat::{self, Nat};
use super::numbers::grouped;
use crate::lab::director::{Director, Options};
use crate::lab::network::{self, balanced, direct, DEVICE, SERVER_PORT, VIRTUAL, VIRTUAL_PORT};
use crate::lab::{Failure, Lab, Running, REPLICAS};
use programs::{Program, COPIER, HAPROXY, NIDHAAGUFD};
use std::path::{Path, PathBuf};

/// The most slots that a director can have, and few.
pub const SLOTS: usize = 4096;
const FEW: usize = 256;
/// How many slots of a full table are used by others. Enough are left for connections that come and go all the time.
const USED: usize = 3600;
/// How fast the director's clock runs with many and with few slots where connections come and go all the time.
pub const FAST: u32 = 150;
/// See above.
pub const FASTER: u32 = 300;

/// A director's table.
#[derive(Clone, Copy, Debug, PartialEq, Eq)]
pub enum Table {
    /// Many slots; the clients' connections are in the first ones, where a search ends early.
    Large,
    /// Many slots, of which the first are used by others: a search passes them all.
    Full,
    /// Few slots.
    Small,
}

/// A way from the client to the replicas.
#[derive(Clone, Debug, PartialEq, Eq)]
pub enum Way {
    /// Straight to a replica.
    Direct,
    /// The kernel's address translation.
    Nat,
    /// A proxy that ends the client's connection.
    Haproxy,
    /// The director with that table: this build, or the one in that folder.
    Director(Table, Option<PathBuf>),
    /// A program on the director's device that only sends packets on.
    Copier,
}

/// A way that is set up; it is taken down when it is dropped.
pub struct Standing {
    /// Where the client finds the service.
    pub address: String,
    /// Its port.
    pub port: &'static str,
    /// The program in the middle.
    pub program: Option<Program>,
    middle: Middle,
}

/// What stands in the middle.
enum Middle {
    Nothing,
    Nat { _nat: Nat },
    Haproxy { _haproxy: Haproxy },
    Director(Director),
    Copier { _copier: Running },
}

/// All ways; with the folder of another build of the director, that too.
pub fn all(beside: Option<&Path>) -> Vec<Way> {
    let mut ways = vec![Way::Direct, Way::Nat, Way::Haproxy];
    ways.extend(on_the_device(beside));
    ways
}

/// The ways whose program in the middle reads and writes the TUN device.
pub fn on_the_device(beside: Option<&Path>) -> Vec<Way> {
    let builds = [None].into_iter().chain(beside.map(|folder| Some(folder.to_path_buf())));
    let mut ways: Vec<Way> = builds
        .flat_map(|build| Table::ALL.map(|table| Way::Director(table, build.clone())))
        .collect();
    ways.push(Way::Copier);
    ways
}

impl Table {
    const ALL: [Table; 3] = [Table::Large, Table::Full, Table::Small];

    fn slots(self) -> usize {
        match self {
            Table::Large | Table::Full => SLOTS,
            Table::Small => FEW,
        }
    }

    fn name(self) -> String {
        let slots = grouped(self.slots() as f64);
        match self {
            Table::Large | Table::Small => format!("{slots} slots"),
            Table::Full => format!("{slots} slots, {} used", grouped(USED as f64)),
        }
    }
}

impl Way {
    /// What it is called in the tables.
    pub fn name(&self) -> String {
        match self {
            Way::Direct => "directly".into(),
            Way::Nat => "kernel NAT (nftables)".into(),
            Way::Haproxy => "HAProxy, TCP mode".into(),
            Way::Director(table, None) => format!("nidhaagufd, {}", table.name()),
            Way::Director(table, Some(_)) => format!("the other nidhaagufd, {}", table.name()),
            Way::Copier => "the limit: reads and writes alone".into(),
        }
    }

    /// Sets it up for that kind of load.
    pub fn start(&self, lab: &Lab, kind: &Kind, round: usize) -> Result<Standing, Failure> {
        let at = |address: &str, program, middle| Standing {
            address: address.into(),
            port: VIRTUAL_PORT,
            program,
            middle,
        };
        Ok(match self {
            Way::Direct => {
                let port = SERVER_PORT;
                Standing { port, ..at(&direct(round % REPLICAS), None, Middle::Nothing) }
            }
            Way::Nat => at(nat::ADDRESS, None, Middle::Nat { _nat: Nat::start(lab, REPLICAS)? }),
            Way::Haproxy => {
                let _haproxy = Haproxy::start(lab, REPLICAS)?;
                at(haproxy::ADDRESS, Some(HAPROXY), Middle::Haproxy { _haproxy })
            }
            Way::Director(table, build) => {
                let director = start_director(lab, *table, build.clone(), kind)?;
                at(VIRTUAL, Some(NIDHAAGUFD), Middle::Director(director))
            }
            Way::Copier => {
                let _copier = start_copier(lab)?;
                at(VIRTUAL, Some(COPIER), Middle::Copier { _copier })
            }
        })
    }
}

impl Standing {
    /// Takes it down; a director must leave in order.
    pub fn stop(self) -> Result<(), Failure> {
        match self.middle {
            Middle::Director(director) => director.stop(),
            _ => Ok(()),
        }
    }
}

/// The director at its true clock. For new connections all the time the clock has to run faster: each finished one keeps its slot
/// for 120 s, and the table would be full after a few seconds.
fn start_director(
    lab: &Lab,
    table: Table,
    build: Option<PathBuf>,
    kind: &Kind,
) -> Result<Director, Failure> {
    let clock_speed = match (kind.reconnect, table) {
        (false, _) => 1,
        (true, Table::Small) => FASTER,
        (true, _) => FAST,
    };
    let options = Options { slots: table.slots(), clock_speed, build, ..Options::default() };
    let director = Director::start(lab, &options)?;
    network::attach(lab, REPLICAS)?;
    if table == Table::Full {
        fill::fill(lab, &director, USED)?;
    }
    Ok(director)
}

fn start_copier(lab: &Lab) -> Result<Running, Failure> {
    let mut command = lab.command("director", COPIER);
    command.args([DEVICE, &format!("{VIRTUAL}:{VIRTUAL_PORT}")]);
    command.args((0..REPLICAS).map(|k| format!("{}:{SERVER_PORT}", balanced(k))));
    let copier = Running::start_ready(&mut command, &lab.run.join("copier.log"))?;
    network::attach(lab, REPLICAS)?;
    Ok(copier)
}
