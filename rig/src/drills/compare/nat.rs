//! What the kernel does by itself: address translation by nftables, one replica after another.

use crate::lab::network::{direct, SERVER_PORT, VIRTUAL_PORT};
use crate::lab::{Failure, Lab};
use programs::NFT;
use std::fs;

/// The address that is translated; nothing else uses it.
pub const ADDRESS: &str = "192.0.2.11";

/// Address translation at the director. It goes when it is dropped: as long as it is there, the kernel follows every
/// connection, also those that aren't translated.
pub struct Nat {
    lab: Lab,
}

impl Nat {
    /// Translates connections to the address and the service's port, to the replicas in turn.
    pub fn start(lab: &Lab, replicas: usize) -> Result<Nat, Failure> {
        let file = lab.run.join("nat.nft");
        fs::write(&file, rules(replicas))?;
        lab.output("director", NFT, &["-f", &file.display().to_string()])?;
        Ok(Nat { lab: lab.clone() })
    }
}

impl Drop for Nat {
    fn drop(&mut self) {
        // It fails only where the namespace is gone, and the table with it.
        let _ = self.lab.output("director", NFT, &["delete", "table", "ip", "translation"]);
    }
}

fn rules(replicas: usize) -> String {
    let map: Vec<String> = (0..replicas).map(|k| format!("{k} : {}", direct(k))).collect();
    format!(
        "table ip translation {{
  chain arriving {{
    type nat hook prerouting priority dstnat;
    ip daddr {ADDRESS} tcp dport {VIRTUAL_PORT} dnat to numgen inc mod {replicas} map {{ {} }} : {SERVER_PORT}
  }}
}}
",
        map.join(", ")
    )
}
