//! Refusals 1 to 4: the rules that settings must keep, at setup and ever after.

use crate::data::*;
use crate::refusal;
use crate::table;

/// "Order: setup 1, 2, 3, 4."
pub fn judge(service: &Service, servers: &[Server; PLACES], row_length: usize) -> Result<(), u8> {
    if !sizes_fit(service.servers, row_length) {
        return Err(refusal::SIZES);
    }
    if !service_fits(service) {
        return Err(refusal::SERVICE);
    }
    // "setup doesn't read what it is given there" (past the last server)
    let used = &servers[..service.servers as usize];
    if used.iter().any(|s| s.address == 0 || s.port == 0) {
        return Err(refusal::SERVER_ENDPOINT);
    }
    if has_equals(used) {
        return Err(refusal::SERVERS_EQUAL);
    }
    Ok(())
}

/// 1: "servers not 1..64, or row length not as above".
fn sizes_fit(servers: u32, row_length: usize) -> bool {
    (1..=PLACES as u32).contains(&servers) && table::length_fits(row_length)
}

/// 2: "virtual address 0 or port 0, protocol not 6 or 17, scheduler not 1..4".
fn service_fits(service: &Service) -> bool {
    service.address != 0
        && service.port != 0
        && matches!(service.protocol, TCP | UDP)
        && matches!(
            service.scheduler,
            ROUND_ROBIN | WEIGHTED_ROUND_ROBIN | LEAST_CONNECTION | WEIGHTED_LEAST_CONNECTION
        )
}

/// 4: "two servers with equal address and port".
fn has_equals(used: &[Server]) -> bool {
    used.iter().enumerate().any(|(number, server)| {
        used[..number]
            .iter()
            .any(|lower| lower.address == server.address && lower.port == server.port)
    })
}
