//! What is around the daemon on its host: the routes that `nidhaagufctl routes` makes, and the files in `contrib/`.
//!
//! The hosts are network namespaces with real interfaces; TCP goes through the real daemon.

mod contrib;
mod firewall;
mod metrics;
mod network;
mod refusals;
mod routes;
mod service;
mod sessions;
