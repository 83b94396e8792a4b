//! The control socket's clients. To talk with them takes no director; an answer does, and is a bounded amount of work between
//! two calls of the packet thread.

pub mod commands;
pub mod connection;
pub mod json;
pub mod left;
pub mod listing;
pub mod load;
pub mod metrics;
pub mod socket;
pub mod status;
pub mod table;

use crate::config::reload::Reload;
use crate::handover::request::Request;
use crate::instance::Instance;
use crate::log::Log;
use crate::system::{self, Waited};
use commands::{Answer, Command};
use connection::Connection;
use socket::{Peer, Socket};
use std::io::ErrorKind;
use std::os::fd::{AsFd, BorrowedFd};
use std::os::unix::net::UnixStream;
use std::time::{Duration, Instant};

/// Clients at once; more wait in the kernel until one has gone.
const MOST_CONNECTIONS: usize = 16;
/// Watchers at once: they stay, and must leave room for others.
const MOST_WATCHERS: usize = 8;
/// Clients let in before those that are in get their turn.
const ACCEPTED_A_TURN: usize = 4;
/// So often the table is looked at for watchers, and they get it at most so often, however fast it changes.
const BETWEEN_TABLES: Duration = Duration::from_millis(100);
/// How long nobody is let in after that failed.
const AFTER_FAILURE: Duration = Duration::from_secs(1);

/// The clients of the control socket.
#[derive(Debug)]
pub struct Control {
    socket: Socket,
    /// Oldest first.
    connections: Vec<Connection>,
    next_accept: Instant,
    next_table: Instant,
}

impl Control {
    /// Nobody has connected yet.
    pub fn new(socket: Socket, now: Instant) -> Control {
        let connections = Vec::with_capacity(MOST_CONNECTIONS);
        Control { socket, connections, next_accept: now, next_table: now }
    }

    /// Adds what to wait for: the socket, then each client.
    pub fn add_waited(&self, files: &mut Vec<Waited>, now: Instant) {
        files.push(Waited::new(&self.socket, self.has_room(now), false));
        files.extend(self.connections.iter().map(Connection::waited));
    }

    /// How long until there is something to do even if nothing happens; None where there is nothing.
    pub fn time_left(&self, now: Instant) -> Option<Duration> {
        if self.has_command() {
            return Some(Duration::ZERO);
        }
        let accept = (self.next_accept > now).then_some(self.next_accept);
        let deadlines = self.connections.iter().filter_map(Connection::deadline);
        let first = deadlines.chain(self.table_time()).chain(accept).min()?;
        Some(first.saturating_duration_since(now))
    }

    /// Reads and writes what is possible, and lets new clients in; `files` is what [`add_waited`](Control::add_waited) added.
    pub fn exchange(&mut self, files: &[Waited], log: &mut Log, now: Instant) {
        let (socket, clients) = files.split_at(1);
        for (client, _) in
            self.connections.iter_mut().zip(clients).filter(|(_, file)| file.is_ready())
        {
            client.exchange(now);
        }
        self.close(now);
        if socket[0].is_ready() {
            self.accept(log, now);
        }
    }

    /// Whether somebody waits for an answer, or it is time to look at the table for the watchers.
    pub fn needs_director(&self, now: Instant) -> bool {
        self.has_command() || self.table_time().is_some_and(|time| time <= now)
    }

    /// Whether the next command to be answered is a reload.
    pub fn asks_for_reload(&self) -> bool {
        let next = self.connections.iter().find(|client| client.has_command());
        let command = next.map(|client| client.command().and_then(|line| read(&line)));
        matches!(command, Some(Ok(Command::Reload)))
    }

    /// Answers a command, and shows the table to the watchers. Gives the stream of a process that is to take over.
    pub fn answer(
        &mut self,
        instance: &mut Instance,
        reload: &mut Reload,
        log: &mut Log,
        now: Instant,
    ) -> Option<UnixStream> {
        let taker = self.answer_one(instance, reload, log, now);
        self.show_table(instance, now);
        self.close(now);
        taker
    }

    /// Leaves the socket to another process. Who has an answer may read it to its end; all others are closed, and may ask again
    /// there.
    pub fn leave(&mut self) {
        self.socket.leave();
        self.connections.retain(Connection::is_answered);
        while !self.connections.is_empty() {
            let mut files: Vec<_> = self.connections.iter().map(Connection::waited).collect();
            let time = self.time_left(Instant::now()).unwrap_or_default();
            if system::wait(&mut files, time).is_err() {
                return;
            }
            let now = Instant::now();
            self.connections.iter_mut().for_each(|client| client.exchange(now));
            self.close(now);
        }
    }

    fn has_command(&self) -> bool {
        self.connections.iter().any(Connection::has_command)
    }

    /// When to look at the table; None where nobody watches.
    fn table_time(&self) -> Option<Instant> {
        self.connections.iter().any(Connection::awaits_change).then_some(self.next_table)
    }

    fn close(&mut self, now: Instant) {
        self.connections.retain(|client| !client.is_over(now));
    }

    fn has_room(&self, now: Instant) -> bool {
        self.connections.len() < MOST_CONNECTIONS && self.next_accept <= now
    }

    /// One command a turn, the oldest client's first: packets wait no longer than for that.
    fn answer_one(
        &mut self,
        instance: &mut Instance,
        reload: &mut Reload,
        log: &mut Log,
        now: Instant,
    ) -> Option<UnixStream> {
        let watchers = self.connections.iter().filter(|client| client.is_watching()).count();
        let place = self.connections.iter().position(Connection::has_command)?;
        let client = &mut self.connections[place];
        let user = client.user();
        match client.command().and_then(|line| obey(&line, instance, reload, watchers)) {
            Ok(Obeyed::TakeOver) => return Some(self.connections.remove(place).into_stream()),
            Ok(Obeyed::Command(Command::Watch, answer)) => {
                let shown = status::timeless(instance);
                let text = format!("ok\n{}", answer.text.made());
                client.watch(&text, instance.changes(), &shown, now);
            }
            Ok(Obeyed::Command(command, answer)) => {
                match command {
                    Command::Reload => {
                        log.tell_reload(&answer.changes, &format!("reload of user {user}"))
                    }
                    _ => log.tell_changes(&answer.changes, &format!("user {user}")),
                }
                client.answer_by("ok\n", answer.text, now);
            }
            Err(complaint) => {
                log.warning(&format!("refused a command of user {user}: {complaint}"));
                client.answer(&format!("error: {complaint}\n"), now);
            }
        }
        None
    }

    /// Shows the table to the watchers that haven't seen it as it is now.
    fn show_table(&mut self, instance: &Instance, now: Instant) {
        if now < self.next_table {
            return;
        }
        self.next_table = now + BETWEEN_TABLES;
        let latest = instance.changes();
        if !self.connections.iter().any(|client| client.is_behind(latest)) {
            return;
        }
        let shown = status::timeless(instance);
        let text = format!("\n{}", status::text(instance));
        for client in self.connections.iter_mut().filter(|client| client.is_behind(latest)) {
            let news = if client.has_shown(&shown) { "" } else { text.as_str() };
            client.watch(news, latest, &shown, now);
        }
    }

    fn accept(&mut self, log: &mut Log, now: Instant) {
        for _ in 0..ACCEPTED_A_TURN {
            if !self.has_room(now) {
                return;
            }
            match self.socket.accept() {
                Ok(Peer::Allowed(stream, user)) => {
                    self.connections.push(Connection::new(stream, user, now))
                }
                Ok(Peer::TurnedAway(user)) => {
                    log.warning(&format!("turned user {user} away from the control socket"))
                }
                Err(error) if error.kind() == ErrorKind::WouldBlock => return,
                // as when no more files can be opened: trying again at once would only cost time
                Err(_) => self.next_accept = now + AFTER_FAILURE,
            }
        }
    }
}

/// What a line of a client comes to.
enum Obeyed {
    Command(Command, Answer),
    TakeOver,
}

fn obey(
    line: &str,
    instance: &mut Instance,
    reload: &mut Reload,
    watchers: usize,
) -> Result<Obeyed, String> {
    if let Some(request) = Request::read(line) {
        return request?.check(instance).map(|()| Obeyed::TakeOver);
    }
    let command = read(line)?;
    if command == Command::Watch && watchers >= MOST_WATCHERS {
        return Err(format!("{watchers} clients watch already, and no more may"));
    }
    command.answer(instance, reload).map(|answer| Obeyed::Command(command, answer))
}

fn read(line: &str) -> Result<Command, String> {
    Command::read(&line.split_whitespace().collect::<Vec<_>>())
}

impl AsFd for Control {
    fn as_fd(&self) -> BorrowedFd<'_> {
        self.socket.as_fd()
    }
}
