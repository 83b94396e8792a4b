//! The parts of the live director that need neither root nor a device.

mod book;
mod clock;
mod command_line;
mod commands;
mod config;
mod connection;
mod damage;
mod defence;
mod earlier_layout;
mod handover;
#[path = "../shared/json.rs"]
mod json;
mod layout;
#[path = "../shared/layouts.rs"]
mod layouts;
mod listing;
mod log;
mod manual;
mod metrics;
mod operator;
#[path = "../shared/own_path.rs"]
mod own_path;
mod packet_thread;
mod packets;
mod recorded;
mod reload;
mod request;
mod segments;
mod signals;
mod snapshot;
mod state_file;
mod support;
mod texts;
mod told;
mod waiting;
