//! The log: one line an event on standard error.

pub mod line;
pub mod output;
pub mod position;

use crate::instance::Instance;
use line::Form;
use output::Output;
use position::Position;
use std::fmt::Display;
use std::io::{self, IsTerminal};
use std::time::SystemTime;

/// How much an event matters, by the numbers of syslog.
#[derive(Clone, Copy, Debug, PartialEq, Eq)]
pub enum Level {
    /// Something failed.
    Error = 3,
    /// Something is not as it should be.
    Warning = 4,
    /// Something that an operator will look for later.
    Notice = 5,
    /// All else.
    Info = 6,
}

impl Level {
    /// Its name.
    pub fn name(self) -> &'static str {
        match self {
            Level::Error => "error",
            Level::Warning => "warning",
            Level::Notice => "notice",
            Level::Info => "info",
        }
    }
}

/// The log. It never ends or stops the director: a line that isn't taken at once is lost, and that is told later.
#[derive(Debug)]
pub struct Log {
    output: Output,
    form: Form,
    position: Position,
}

impl Log {
    /// A log to that output.
    pub fn new(output: Output, form: Form) -> Log {
        Log { output, form, position: Position::default() }
    }

    /// A log on standard error, each line with its time or not.
    pub fn on_standard_error(timed: bool) -> Log {
        let form = match (timed, io::stderr().is_terminal()) {
            (true, _) => Form::Timed,
            (false, true) => Form::Plain,
            (false, false) => Form::Journal,
        };
        Log::new(Output::standard_error(), form)
    }

    /// Goes on from a position, of a fresh start or of the process that served before; lines of this log count on.
    pub fn go_on(&mut self, position: Position) {
        let Position { lines, lost, told } = position;
        let own = &self.position;
        self.position = Position { lines: own.lines + lines, lost: own.lost + lost, told };
    }

    /// How far it has come.
    pub fn position(&self) -> &Position {
        &self.position
    }

    /// Tells what is new of the table and the servers.
    pub fn look(&mut self, instance: &Instance) {
        for (level, line) in self.position.told.look(instance) {
            self.write(level, &line);
        }
    }

    /// Tells what was changed, and by whom.
    pub fn tell_changes(&mut self, changes: &[impl Display], by: &str) {
        for change in changes {
            self.notice(&format!("{change}, by {by}"));
        }
    }

    /// Tells a reload, also one that changed nothing.
    pub fn tell_reload(&mut self, changes: &[impl Display], by: &str) {
        if changes.is_empty() {
            self.notice(&format!("{by}: nothing has changed"));
        }
        self.tell_changes(changes, by);
    }

    /// Writes a line, and before it how many were lost.
    pub fn write(&mut self, level: Level, text: &str) {
        if self.position.lost > 0 {
            let lost = format!("{} lines of the log were lost", self.position.lost);
            if self.put(Level::Warning, &lost) {
                self.position.lost = 0;
            }
        }
        // in their order: none before those that were lost are told
        if self.position.lost > 0 || !self.put(level, text) {
            self.position.lost += 1;
        }
    }

    fn put(&mut self, level: Level, text: &str) -> bool {
        let line = line::written(self.form, level, text, SystemTime::now());
        let taken = self.output.put(&line);
        self.position.lines += u64::from(taken);
        taken
    }

    /// Something failed.
    pub fn error(&mut self, line: &str) {
        self.write(Level::Error, line);
    }

    /// Something is not as it should be.
    pub fn warning(&mut self, line: &str) {
        self.write(Level::Warning, line);
    }

    /// Something that an operator will look for later.
    pub fn notice(&mut self, line: &str) {
        self.write(Level::Notice, line);
    }

    /// All else.
    pub fn info(&mut self, line: &str) {
        self.write(Level::Info, line);
    }
}
