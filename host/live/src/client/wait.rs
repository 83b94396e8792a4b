//! Waits until a server has no connections, by one director.

use crate::client::ask::{self, PATIENCE};
use crate::client::failure::Failure;
use crate::client::output::print_on;
use crate::client::progress::{self, Progress};
use crate::control::left::Left;
use std::path::Path;
use std::time::{Duration, Instant};

/// So often the director is asked.
const INTERVAL: Duration = Duration::from_millis(200);
/// So long it may take to answer, even where less time is left.
const SHORTEST: Duration = Duration::from_secs(1);

/// Waits, at most so long.
pub fn wait(path: &Path, server: &str, time: Option<Duration>) -> Result<(), Failure> {
    let mut wait = Wait::new(path, server, time);
    let left = wait.ask()?;
    wait.to_the_end(left)
}

/// Drains the server before. The director is known before it drains: it is the one that must tell that all is over.
pub fn drain_and_wait(path: &Path, server: &str, time: Option<Duration>) -> Result<(), Failure> {
    let mut wait = Wait::new(path, server, time);
    wait.ask()?;
    print_on(&ask::say(path, &format!("drain {server}"), PATIENCE)?)?;
    let left = wait.ask()?;
    wait.to_the_end(left)
}

/// A wait.
struct Wait<'a> {
    path: &'a Path,
    server: &'a str,
    time: Option<Duration>,
    begin: Instant,
    /// The director that it began with.
    director: Option<String>,
}

impl Wait<'_> {
    fn new<'a>(path: &'a Path, server: &'a str, time: Option<Duration>) -> Wait<'a> {
        Wait { path, server, time, begin: Instant::now(), director: None }
    }

    fn to_the_end(&mut self, mut left: Left) -> Result<(), Failure> {
        let mut progress = Progress::new();
        loop {
            if left.in_service {
                return Err(in_service(&left));
            }
            progress.show(&left)?;
            if left.connections == 0 {
                return Ok(());
            }
            let time_left = self.time_left();
            if time_left == Some(Duration::ZERO) {
                return Err(self.time_is_up(&progress::text(&left)));
            }
            std::thread::sleep(time_left.map_or(INTERVAL, |time| time.min(INTERVAL)));
            left = self.ask()?;
        }
    }

    /// What is left, as told by the director that the wait began with.
    fn ask(&mut self) -> Result<Left, Failure> {
        let patience = self.time_left().map_or(PATIENCE, |time| time.clamp(SHORTEST, PATIENCE));
        let line = match ask::say(self.path, &format!("left {}", self.server), patience) {
            Err(Failure::Silent(complaint)) if self.time_left() == Some(Duration::ZERO) => {
                return Err(self.time_is_up(&complaint));
            }
            said => said?,
        };
        let left: Left = line.parse().map_err(Failure::Wrong)?;
        let first = self.director.get_or_insert_with(|| left.director.clone());
        match *first == left.director {
            true => Ok(left),
            false => Err(self.another(&left)),
        }
    }

    /// None where there is no limit.
    fn time_left(&self) -> Option<Duration> {
        self.time.map(|time| time.saturating_sub(self.begin.elapsed()))
    }

    fn time_is_up(&self, words: &str) -> Failure {
        let seconds = self.time.unwrap_or_default().as_secs();
        Failure::TimeIsUp(format!("the time is up after {seconds} s: {words}"))
    }

    fn another(&self, left: &Left) -> Failure {
        let (path, first) = (self.path.display(), self.director.as_deref().unwrap_or_default());
        Failure::Wrong(format!(
            "another director answers at {path} now, {} instead of {first}: it doesn't know the connections that were waited for",
            left.director
        ))
    }
}

fn in_service(left: &Left) -> Failure {
    let Left { server, at, .. } = left;
    Failure::Refused(format!(
        "server {server} ({at}) is in service: a count of zero would not last, so drain it first"
    ))
}
