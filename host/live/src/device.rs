//! What the kernel counts of a network device.

use std::fs;

/// The column of packets that the device's queue had no room for, among those after the name.
const DROPPED: usize = 11;

/// Packets for the daemon that the device's queue had no room for; None where that can't be read.
pub fn drops(name: &str) -> Option<u64> {
    drops_in(&fs::read_to_string("/proc/self/net/dev").ok()?, name)
}

/// The same, from the kernel's text.
pub fn drops_in(text: &str, name: &str) -> Option<u64> {
    let of_device = |line: &str| {
        let (found, numbers) = line.trim_start().split_once(':')?;
        (found == name).then(|| numbers.split_whitespace().nth(DROPPED)?.parse().ok())?
    };
    text.lines().find_map(of_device)
}
