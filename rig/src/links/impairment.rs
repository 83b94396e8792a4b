//! Impairs the links of the service: every packet goes through the relay `impair` on its way to the director and again
//! after it, and nftables drops some more on one server's link.
//!
//! The kernel routes by incoming interface. What comes from the client, from a server's balanced address or from the
//! director goes to the relay's device. What comes from the relay goes on as it would have gone without it.

use crate::lab::network::{balanced, server, CLIENT, DEVICE, VIRTUAL};
use crate::lab::{ensure, Failure, Lab, Running, SIGTERM};
use crate::links::relay::{Counts, Rates};
use programs::{IMPAIR, IP, NFT};
use std::fs;
use std::path::PathBuf;
use std::time::Duration;

/// The relay's device in the director's namespace.
const RELAY: &str = "imp0";
/// The table of the route to the relay, and of the one from there to the director.
const TO_RELAY: &str = "200";
const TO_DIRECTOR: &str = "201";
/// How long the relay may take to end.
const PATIENCE: Duration = Duration::from_secs(20);
/// The four ways of a packet, as the counters are called.
const LEGS: [&str; 4] =
    ["client_to_director", "director_to_server", "server_to_director", "director_to_client"];

/// What is done to the packets.
#[derive(Clone, Copy, Debug)]
pub struct Plan {
    /// The relay's seed.
    pub seed: u64,
    /// What the relay does.
    pub rates: Rates,
    /// The server on whose link nftables drops packets, both ways, and how many in a thousand.
    pub dropping: (usize, u64),
}

/// What became of the packets.
#[derive(Clone, Copy, Debug)]
pub struct Impaired {
    /// What the relay did.
    pub counts: Counts,
    /// How many packets it let go on each of the four ways: client to director, director to server, and back.
    pub legs: [u64; 4],
    /// How many nftables dropped.
    pub dropped: u64,
}

/// Impaired links; packets pass no longer when it is dropped.
pub struct Impairment {
    lab: Lab,
    running: Running,
    said: PathBuf,
}

impl Impairment {
    /// Starts the relay and leads all packets of the service through it. The director's device is up already.
    pub fn start(lab: &Lab, servers: usize, plan: Plan) -> Result<Impairment, Failure> {
        let said = lab.run.join("impair.log");
        let mut command = lab.command("director", IMPAIR);
        let Rates { loss, duplicate, reorder } = plan.rates;
        let numbers = [
            ("--seed", plan.seed),
            ("--loss", loss),
            ("--duplicate", duplicate),
            ("--reorder", reorder),
        ];
        command.args(["--device", RELAY]);
        for (flag, number) in numbers {
            command.args([flag, &number.to_string()]);
        }
        let running = Running::start_ready(&mut command, &said)?;
        let filters = lab.run.join("impairment.nft");
        fs::write(&filters, filter_rules(plan))?;
        lab.output("director", NFT, &["-f", &filters.display().to_string()])?;
        route(lab, servers)?;
        Ok(Impairment { lab: lab.clone(), running, said })
    }

    /// Ends the relay, when nothing is to pass any more. Fails unless all four ways led through it, each packet of theirs
    /// once.
    pub fn stop(mut self) -> Result<Impaired, Failure> {
        self.running.signal(SIGTERM)?;
        let status = self.running.wait(PATIENCE)?;
        let said = fs::read_to_string(&self.said)?;
        let counts = said.lines().last().and_then(Counts::parse);
        let counts =
            counts.ok_or(Failure(format!("the relay ended with {status} and said {said}")))?;
        let counters =
            self.lab.output("director", NFT, &["list", "counters", "table", "ip", "impairment"])?;
        let legs = [0, 1, 2, 3].map(|leg| counted(&counters, LEGS[leg]));
        let past_relay = counted(&counters, "past_relay");
        ensure(past_relay == 0, format!("{past_relay} packets went past the relay"))?;
        ensure(
            legs.iter().all(|&packets| packets > 0),
            format!("no packets on one of the four ways: {legs:?}"),
        )?;
        let (came, went) =
            (legs.iter().sum::<u64>(), counts.read - counts.lost + counts.duplicated);
        ensure(came == went, format!("the relay wrote {went} packets, and {came} were routed on"))?;
        Ok(Impaired { counts, legs, dropped: counted(&counters, "dropped") })
    }
}

/// The rules by which each packet goes through the relay once before the director and once after it.
fn route(lab: &Lab, servers: usize) -> Result<(), Failure> {
    let ip = |args: &[&str]| lab.output("director", IP, args).map(|_| ());
    ip(&["link", "set", RELAY, "up"])?;
    ip(&["route", "add", "default", "dev", RELAY, "table", TO_RELAY])?;
    ip(&["route", "add", "default", "dev", DEVICE, "table", TO_DIRECTOR])?;
    for k in 0..servers {
        // The main table would take a server's answer to its client; it has to go to the director first.
        ip(&[
            "rule",
            "add",
            "pref",
            "100",
            "iif",
            RELAY,
            "from",
            &balanced(k),
            "lookup",
            TO_DIRECTOR,
        ])?;
        ip(&[
            "rule",
            "add",
            "pref",
            "101",
            "iif",
            &server(k),
            "from",
            &balanced(k),
            "lookup",
            TO_RELAY,
        ])?;
    }
    ip(&["rule", "add", "pref", "101", "iif", "client", "to", VIRTUAL, "lookup", TO_RELAY])?;
    ip(&["rule", "add", "pref", "101", "iif", DEVICE, "lookup", TO_RELAY])
}

/// Counters on the four ways and on the ways past the relay; behind them random drops on one link.
fn filter_rules(plan: Plan) -> String {
    let (dropping, rate) = (server(plan.dropping.0), plan.dropping.1);
    let names = LEGS.iter().chain(&["past_relay", "dropped"]);
    let counters: String = names.map(|name| format!("  counter {name} {{ }}\n")).collect();
    format!(
        "table ip impairment {{\n{counters}
  chain ways {{
    type filter hook forward priority -10;
    iifname {RELAY} oifname {DEVICE} ip daddr {VIRTUAL} counter name client_to_director
    iifname {RELAY} oifname \"s*\" ip saddr {CLIENT} counter name director_to_server
    iifname {RELAY} oifname {DEVICE} ip daddr {CLIENT} counter name server_to_director
    iifname {RELAY} oifname client ip saddr {VIRTUAL} counter name director_to_client
    iifname {DEVICE} oifname != {RELAY} counter name past_relay
    oifname {DEVICE} iifname != {RELAY} counter name past_relay
  }}
  chain drops {{
    type filter hook forward priority 0;
    oifname {dropping} numgen random mod 1000 < {rate} counter name dropped drop
    iifname {dropping} numgen random mod 1000 < {rate} counter name dropped drop
  }}
}}
"
    )
}

/// The packets of a counter in what `nft list counters` prints.
fn counted(counters: &str, name: &str) -> u64 {
    let (_, rest) = counters.split_once(&format!("counter {name} {{")).unwrap_or(("", ""));
    let mut words = rest.split_whitespace().skip_while(|word| *word != "packets").skip(1);
    words.next().and_then(|number| number.parse().ok()).unwrap_or(0)
}

#[cfg(test)]
mod tests {
    use super::*;

    #[test]
    fn counters_are_read_by_name() {
        let text = "table ip impairment {\n\tcounter dropped {\n\t\tpackets 12 bytes 900\n\t}\n\
                    \tcounter past_relay {\n\t\tpackets 3 bytes 4\n\t}\n}\n";
        assert_eq!(
            (counted(text, "dropped"), counted(text, "past_relay"), counted(text, "other")),
            (12, 3, 0)
        );
    }
}
