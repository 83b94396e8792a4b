//! The same passes as the library's, written plainly: safe Rust with its bounds checks, and no proof.

use reference::Server;

/// Rules 3 and 4, unused places, each slot, and each count: one pass over the row.
pub fn is_sound(servers: &[Server; 64], n: usize, row: &[u32], clock: u32) -> bool {
    let (used, unused) = servers.split_at(n);
    let set = used.iter().all(|server| server.address != 0 && server.port != 0);
    set && distinct(used)
        && unused.iter().all(|server| *server == Server::default())
        && tally(servers, n, row, clock)
}

fn distinct(servers: &[Server]) -> bool {
    let at = |server: &Server| (server.address, server.port);
    (0..servers.len()).all(|i| servers[..i].iter().all(|lower| at(lower) != at(&servers[i])))
}

fn tally(servers: &[Server; 64], n: usize, row: &[u32], clock: u32) -> bool {
    let mut counts = [0u32; 64];
    for slot in row.chunks_exact(5) {
        if slot[0] == 0 {
            if slot[1..].iter().any(|word| *word != 0) {
                return false;
            }
            continue;
        }
        if slot[0] > 4 || slot[2] > 65535 || slot[3] as usize >= n || slot[4] > clock {
            return false;
        }
        counts[slot[3] as usize] += 1;
    }
    servers.iter().zip(counts).all(|(server, count)| server.count == count)
}

/// Every idle TCP connection is removed.
pub fn expire(row: &mut [u32], servers: &mut [Server; 64], clock: u32) -> u32 {
    let mut removed = 0;
    for slot in row.chunks_exact_mut(5) {
        let limit = if slot[0] == 4 { 120 } else { 900 };
        if slot[0] != 0 && clock - slot[4] >= limit {
            servers[slot[3] as usize].count -= 1;
            slot.fill(0);
            removed += 1;
        }
    }
    removed
}

pub fn find(row: &[u32], client: (u32, u16)) -> Option<usize> {
    let (address, port) = (client.0, u32::from(client.1));
    row.chunks_exact(5).position(|slot| slot[2] == port && slot[1] == address && slot[0] != 0)
}

pub fn find_free(row: &[u32]) -> Option<usize> {
    row.chunks_exact(5).position(|slot| slot[0] == 0)
}

/// A packet's source address and port, with a header of 20 bytes.
pub fn source(packet: &[u8]) -> (u32, u16) {
    (u32::from(word(packet, 12)) << 16 | u32::from(word(packet, 14)), word(packet, 20))
}

fn word(packet: &[u8], at: usize) -> u16 {
    u16::from_be_bytes([packet[at], packet[at + 1]])
}

/// RFC 1624, equation 3.
fn edit(sum: u16, old: u16, new: u16) -> u16 {
    let total = u32::from(!sum) + u32::from(!old) + u32::from(new);
    let folded = (total & 0xFFFF) + (total >> 16);
    !((folded & 0xFFFF) + (folded >> 16)) as u16
}

/// Destination address and port set, both checksums edited, in a packet with a header of 20 bytes.
pub fn redirect(packet: &mut [u8], address: u32, port: u16) {
    let words = [(16, (address >> 16) as u16), (18, address as u16), (22, port)];
    for (at, new) in words {
        let old = word(packet, at);
        if at < 20 {
            let header = edit(word(packet, 10), old, new);
            packet[10..12].copy_from_slice(&header.to_be_bytes());
        }
        let transport = edit(word(packet, 36), old, new);
        packet[36..38].copy_from_slice(&transport.to_be_bytes());
        packet[at..at + 2].copy_from_slice(&new.to_be_bytes());
    }
}

/// RFC 1071: the sum of the big-endian words of a packet, or of a part of it.
pub fn ones_sum(bytes: &[u8]) -> u16 {
    let words = bytes.chunks_exact(2);
    let mut sum = words.remainder().first().map_or(0, |&odd| u32::from(odd) << 8);
    for word in words {
        sum += u32::from(u16::from_be_bytes([word[0], word[1]]));
    }
    while sum > 0xFFFF {
        sum = (sum & 0xFFFF) + (sum >> 16);
    }
    sum as u16
}
