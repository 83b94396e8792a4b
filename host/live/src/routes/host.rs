//! What is asked of the host, and what is changed there.

use super::part::{Part, Step};
use programs::IP;
use std::fs;
use std::net::Ipv4Addr;

/// Runs a command to its end, and gives what it wrote.
pub fn run(command: &Step) -> Result<String, String> {
    let done = command.program.command().args(&command.words).output();
    let done = done.map_err(|error| format!("{command}: {error}"))?;
    match done.status.success() {
        true => Ok(String::from_utf8_lossy(&done.stdout).into_owned()),
        false => Err(format!("{command}: {}", String::from_utf8_lossy(&done.stderr).trim())),
    }
}

/// What `ip` says to these words.
pub fn ip(words: &str) -> Result<String, String> {
    run(&Step::new(IP, &words.split(' ').collect::<Vec<_>>()))
}

/// The device that the host sends packets to that address by.
pub fn device_to(address: Ipv4Addr) -> Result<String, String> {
    let told = ip(&format!("route get {address}"))?;
    word_after(&told, "dev")
        .ok_or_else(|| format!("ip route get {address}: expected a device, got {told:?}"))
}

/// Whether the address is one of the host's own.
pub fn is_own(address: Ipv4Addr) -> Result<bool, String> {
    Ok(!ip(&format!("-o address show to {address}/32"))?.is_empty())
}

/// The word behind that one.
pub fn word_after(text: &str, word: &str) -> Option<String> {
    let mut words = text.split_whitespace();
    words.find(|found| *found == word)?;
    words.next().map(str::to_string)
}

/// The device must be there.
pub fn check_device(device: &str) -> Result<(), String> {
    ip(&format!("link show dev {device}")).map(|_| ()).map_err(|complaint| {
        format!("{complaint}\nnidhaagufd makes the device when it starts; one that stays: ip tuntap add dev {device} mode tun")
    })
}

/// Whether a setting is in effect already, or a device up.
pub fn is_so(part: &Part) -> Result<bool, String> {
    match part {
        Part::Setting { name, value } => Ok(in_effect(name)? == *value),
        Part::Link(device) => {
            let told = ip(&format!("-br link show dev {device}"))?;
            Ok(told.contains("<UP") || told.contains(",UP"))
        }
        _ => Ok(false),
    }
}

/// A setting's value. Of `rp_filter` the greater of the device's and of `all` is in effect, and 0 is as good as 2.
fn in_effect(name: &str) -> Result<String, String> {
    let of_all = match name.ends_with("/rp_filter") {
        true => setting("net/ipv4/conf/all/rp_filter")?,
        false => String::new(),
    };
    let value = setting(name)?.max(of_all.clone());
    Ok(if value == "0" && !of_all.is_empty() { "2".into() } else { value })
}

fn setting(name: &str) -> Result<String, String> {
    let path = format!("/proc/sys/{name}");
    let value = fs::read_to_string(&path).map_err(|error| format!("{path}: {error}"))?;
    Ok(value.trim().to_string())
}
