//! What the next process asks for over the control socket, before anything stops.

use super::layout::{self, LAYOUT};
use crate::config::words;
use crate::instance::Instance;
use nidhaaguf::Protocol;
use std::net::SocketAddrV4;

const NAME: &str = "take-over";

/// A request to hand the director over.
#[derive(Clone, Copy, Debug, PartialEq, Eq)]
pub struct Request {
    /// The layout that the next process reads.
    pub layout: u32,
    /// The service that it is for.
    pub service: SocketAddrV4,
    /// The service's protocol.
    pub protocol: Protocol,
}

impl Request {
    /// For that service, by this program.
    pub fn new((service, protocol): (SocketAddrV4, Protocol)) -> Request {
        Request { layout: LAYOUT, service, protocol }
    }

    /// The command line that says it.
    pub fn line(&self) -> String {
        let Request { layout, service, protocol } = self;
        format!("{NAME} {layout} {service} {}\n", words::protocol_name(*protocol))
    }

    /// Reads a client's line; None where it is another command.
    pub fn read(line: &str) -> Option<Result<Request, String>> {
        match line.split_whitespace().collect::<Vec<_>>().as_slice() {
            [NAME, layout, service, protocol] => Some(Request::of(layout, service, protocol)),
            [NAME, ..] => Some(Err(format!("expected `{NAME} LAYOUT ADDRESS:PORT PROTOCOL`"))),
            _ => None,
        }
    }

    fn of(layout: &str, service: &str, protocol: &str) -> Result<Request, String> {
        let layout = words::number(layout, "a layout's number")?;
        let (service, protocol) = (words::address(service)?, words::protocol(protocol)?);
        Ok(Request { layout, service, protocol })
    }

    /// Whether that director may be handed over so; an error says why not.
    pub fn check(&self, instance: &Instance) -> Result<(), String> {
        let settings = instance.settings();
        let named = |service: SocketAddrV4, protocol| {
            format!("{service} {}", words::protocol_name(protocol))
        };
        let asked = named(self.service, self.protocol);
        let served = named(settings.service, settings.protocol);
        if self.layout != LAYOUT {
            return Err(other_layout(self.layout, LAYOUT));
        }
        if asked != served {
            return Err(format!("the service {asked} is asked for, and {served} is served here"));
        }
        Ok(())
    }

    /// The request for an earlier layout, where this one is refused because the other program has that one.
    pub fn earlier(&self, refusal: &str) -> Option<Request> {
        let layout =
            layout::earlier().find(|&layout| refusal == other_layout(self.layout, layout))?;
        Some(Request { layout, ..*self })
    }
}

/// Why a program of another layout hands nothing over. The next process reads it: these words stay as they are.
fn other_layout(asked: u32, own: u32) -> String {
    format!("layout {asked} is asked for, and this program's is {own}")
}
