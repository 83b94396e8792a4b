//! The Internet checksum: RFC 1071 sums, RFC 1624 equation 3 edits.

/// One's complement fold of a sum into 16 bits (RFC 1071).
pub fn fold(mut sum: u64) -> u16 {
    while sum > 0xFFFF {
        sum = (sum & 0xFFFF) + (sum >> 16);
    }
    sum as u16
}

/// The unfolded sum of big-endian words; an odd last byte is padded with zero.
pub fn sum(bytes: &[u8]) -> u64 {
    bytes
        .chunks(2)
        .map(|pair| u64::from(pair[0]) << 8 | u64::from(pair.get(1).copied().unwrap_or(0)))
        .sum()
}

/// A header is valid when its words, checksum included, sum to FFFF.
pub fn is_valid(header: &[u8]) -> bool {
    fold(sum(header)) == 0xFFFF
}

/// RFC 1624 equation 3: HC' = ~(~HC + ~m + m').
pub fn edit_word(checksum: u16, old: u16, new: u16) -> u16 {
    !fold(u64::from(!checksum) + u64::from(!old) + u64::from(new))
}

/// The edit over the two words of an address.
pub fn edit_address(checksum: u16, old: u32, new: u32) -> u16 {
    let upper = edit_word(checksum, (old >> 16) as u16, (new >> 16) as u16);
    edit_word(upper, old as u16, new as u16)
}

/// "the transport checksum over these and the port word"
pub fn edit_endpoint(checksum: u16, old: (u32, u16), new: (u32, u16)) -> u16 {
    edit_word(edit_address(checksum, old.0, new.0), old.1, new.1)
}

/// "UDP checksum 0 stays 0; a UDP result of 0 is written FFFF."
pub fn edit_udp_endpoint(checksum: u16, old: (u32, u16), new: (u32, u16)) -> u16 {
    if checksum == 0 {
        return 0;
    }
    udp_written(edit_endpoint(checksum, old, new))
}

/// How a computed UDP checksum is written.
pub fn udp_written(result: u16) -> u16 {
    match result {
        0 => 0xFFFF,
        other => other,
    }
}
