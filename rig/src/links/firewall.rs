//! The firewall of `contrib/`, on the director's host.

use crate::lab::{Failure, Lab};
use programs::NFT;
use std::fs;

/// Its file, as an operator loads it; the rig's addresses are those that stand in it.
const RULES: &str = include_str!("../../../contrib/nidhaaguf.nft");
const NAME: &str = "nidhaaguf.nft";

/// The firewall, loaded.
pub struct Firewall<'a> {
    lab: &'a Lab,
}

impl Firewall<'_> {
    /// Loads it.
    pub fn load(lab: &Lab) -> Result<Firewall<'_>, Failure> {
        let file = lab.run.join(NAME);
        fs::write(&file, RULES)?;
        lab.output("director", NFT, &["-f", &file.display().to_string()])?;
        Ok(Firewall { lab })
    }

    /// How many packets of clients it has dropped: as invalid, and for the limit of their source.
    pub fn dropped(&self) -> Result<(u64, u64), Failure> {
        let rules = self.lab.output(
            "director",
            NFT,
            &["list", "chain", "ip", "nidhaaguf", "from_clients"],
        )?;
        let strange = || Failure(format!("these are not the rules of {NAME}: {rules}"));
        let number = |rule: &str| -> Option<u64> {
            let line = rules.lines().find(|line| line.contains(rule))?;
            line.split_once("counter packets ")?.1.split(' ').next()?.parse().ok()
        };
        number("ct state invalid").zip(number("ct state new")).ok_or_else(strange)
    }
}
