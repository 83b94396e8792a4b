//! The operator's command: says something to a running director and prints its answer.

pub mod ask;
pub mod failure;
pub mod output;
pub mod progress;
pub mod task;
pub mod usage;
pub mod wait;

use crate::config::DEFAULT_SOCKET;
use failure::Failure;
use output::print;
use std::ffi::OsString;
use std::path::PathBuf;
use std::process::ExitCode;
use task::Task;

/// Does what the arguments after the program's name ask for.
pub fn main(arguments: impl Iterator<Item = OsString>) -> ExitCode {
    let arguments = arguments.map(|word| word.to_string_lossy().into_owned());
    match run(&arguments.collect::<Vec<String>>()) {
        Ok(()) => ExitCode::SUCCESS,
        Err(failure) => failure.tell(),
    }
}

fn run(arguments: &[String]) -> Result<(), Failure> {
    let words: Vec<&str> = arguments.iter().map(String::as_str).collect();
    let (path, words) = match words.as_slice() {
        ["--socket", path, rest @ ..] => (PathBuf::from(path), rest),
        ["--socket"] => return Err(Failure::Wrong("--socket: expected a path after it".into())),
        rest => (PathBuf::from(DEFAULT_SOCKET), rest),
    };
    // judged here, so that wrong usage is told from a refusal
    match Task::read(words).map_err(Failure::Wrong)? {
        Task::Help => print(&usage::all()),
        Task::HelpOf(entry) => print(&usage::of(&entry)),
        Task::Version => print(concat!("nidhaagufctl ", env!("CARGO_PKG_VERSION"), "\n")),
        Task::Say(line) => print(&ask::say(&path, &line, ask::PATIENCE)?),
        Task::Watch => ask::watch(&path),
        Task::Wait { server, time } => wait::wait(&path, &server, time),
        Task::DrainAndWait { server, time } => wait::drain_and_wait(&path, &server, time),
        Task::Routes(order) => print(&order.carry_out().map_err(Failure::Refused)?),
    }
}
