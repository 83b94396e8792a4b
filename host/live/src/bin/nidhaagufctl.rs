//! The operator's command.

use std::process::ExitCode;

fn main() -> ExitCode {
    live::client::main(std::env::args_os().skip(1))
}
