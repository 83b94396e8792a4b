//! From a configuration to the library's director, and what to say where that isn't possible.

use crate::config::given::Given;
use crate::config::Config;
use nidhaaguf::{raw, Director, Refusal, Server};
use std::os::unix::ffi::OsStrExt;

/// The longest name of a network device, and the longest path of a Unix socket, that Linux takes.
const MOST_NAME: usize = 15;
const MOST_PATH: usize = 107;

/// Sets up the library's director, and checks what only the operating system would refuse later.
pub fn set_up(config: &Config) -> Result<Director, String> {
    check_device(&config.device)?;
    let (socket, place) = (config.socket.value.as_os_str(), &config.socket.place);
    if socket.is_empty() || socket.len() > MOST_PATH || socket.as_bytes().contains(&0) {
        return Err(format!("{place}: expected a path of 1 to {MOST_PATH} bytes"));
    }
    let Given { value: state, place } = &config.state;
    if *state == config.socket.value {
        return Err(format!("{place}: the control socket and the state file need a path each"));
    }
    let director = Director::set_up(&config.settings(), config.slots.value)
        .map_err(|refusal| explained(config, refusal))?;
    check_servers(config).map(|()| director)
}

/// A server that is the service itself would get its own packets back.
fn check_servers(config: &Config) -> Result<(), String> {
    let (service, _) = config.service.value;
    match config.servers.iter().find(|server| server.value.at == service) {
        None => Ok(()),
        Some(Given { place, .. }) => {
            let expected = "expected a server's own address and port";
            Err(format!("{place}: {expected}, got those of the service, {service}"))
        }
    }
}

fn check_device(device: &Given<String>) -> Result<(), String> {
    let name = device.value.as_bytes();
    // the kernel would take % as a pattern, and / or : it refuses
    let plain = |byte: &u8| byte.is_ascii_alphanumeric() || b"-_.".contains(byte);
    let dots = [".", ".."].contains(&device.value.as_str());
    if (1..=MOST_NAME).contains(&name.len()) && name.iter().all(plain) && !dots {
        return Ok(());
    }
    let expected = format!("expected a name of 1 to {MOST_NAME} letters, digits, - _ and .");
    Err(format!("{}: {expected}, got {:?}", device.place, device.value))
}

/// The library's reason, with the line to blame.
fn explained(config: &Config, refusal: Refusal) -> String {
    let servers = &config.servers;
    let (place, got) = match refusal {
        Refusal::Sizes => match servers.get(raw::PLACES) {
            Some(server) => (&server.place, format!("{} servers", servers.len())),
            None => (&config.slots.place, format!("{} slots", config.slots.value)),
        },
        Refusal::ServerUnset => {
            let unset = servers.iter().find(|server| is_unset(&server.value));
            let unset = unset.unwrap_or(&servers[0]);
            (&unset.place, unset.value.at.to_string())
        }
        Refusal::ServerRepeated => repeated(servers),
        _ => (&config.service.place, config.service.value.0.to_string()),
    };
    format!("{place}: {refusal}, got {got}")
}

fn is_unset(server: &Server) -> bool {
    server.at.ip().is_unspecified() || server.at.port() == 0
}

/// The second of the first two servers with the same address and port.
fn repeated(servers: &[Given<Server>]) -> (&String, String) {
    let first_like = |server: &Given<Server>| {
        servers.iter().position(|other| other.value.at == server.value.at).unwrap_or(0)
    };
    let later = servers.iter().enumerate().find(|(place, server)| first_like(server) < *place);
    let second = later.map_or(&servers[0], |(_, server)| server);
    let first = &servers[first_like(second)];
    (&second.place, format!("{}, as at {}", second.value.at, first.place))
}
