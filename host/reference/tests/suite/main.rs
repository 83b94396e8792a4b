//! One test program; each module holds one subject of the rules (docs/SCOPE.md).

mod always_a_server;
mod book;
mod checksums;
mod connections;
mod editing;
mod examples;
mod header_checksum;
mod idle;
mod order;
mod packet_refusals;
mod random;
mod renewal;
mod rows;
mod schedulers;
mod setup;
mod summing;
mod support;
mod unsound;
mod weights;
