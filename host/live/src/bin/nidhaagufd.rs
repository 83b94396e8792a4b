//! The director's daemon: reads its configuration, opens its device and its control socket, and serves.

use live::config::flags::{self, Flags, Request};
use live::config::reload::Reload;
use live::config::{setup, words, Config};
use live::handover::file;
use live::handover::snapshot::Snapshot;
use live::instance::Instance;
use live::log::output::Output;
use live::log::Log;
use live::serve::{Around, End};
use live::start::{self, Started};
use live::system::signals::Signals;
use std::io::{self, Write};
use std::process::ExitCode;

/// What ends the program early, and how.
enum Failure {
    /// The command line or the configuration: exit 2.
    Wrong(String),
    /// The machine: exit 1.
    Failed(String),
}

fn main() -> ExitCode {
    let request = flags::read(std::env::args_os().skip(1));
    let timed = matches!(&request, Ok(Request::Run(flags)) if flags.log_time);
    let mut log = Log::on_standard_error(timed);
    let done = match request {
        Ok(Request::Help) => say(flags::HELP.trim_end()),
        Ok(Request::Version) => say(concat!("nidhaagufd ", env!("CARGO_PKG_VERSION"))),
        Ok(Request::Run(flags)) => run(flags, &mut log),
        Err(complaint) => Err(Failure::Wrong(complaint)),
    };
    match done {
        Ok(()) => ExitCode::SUCCESS,
        Err(Failure::Wrong(complaint)) => {
            log.error(&complaint);
            ExitCode::from(2)
        }
        Err(Failure::Failed(complaint)) => {
            log.error(&complaint);
            ExitCode::FAILURE
        }
    }
}

fn run(flags: Flags, log: &mut Log) -> Result<(), Failure> {
    let (check, take_over, speed) = (flags.check, flags.take_over, flags.clock_speed.unwrap_or(1));
    let config = Config::load(flags.clone()).map_err(Failure::Wrong)?;
    let director = setup::set_up(&config).map_err(Failure::Wrong)?;
    if check {
        return say("configuration is good");
    }
    if speed != 1 {
        log.warning(&format!(
            "for drills only: the clock runs {speed} times as fast (--clock-speed)"
        ));
    }
    // before a thread is started: so no signal goes to another
    let signals = Signals::take()
        .map_err(|error| Failure::Failed(format!("signals can't be taken: {error}")))?;
    let started = match take_over {
        true => start::take_over(&config, speed, log)
            .map_err(|reason| format!("nothing was taken over: {reason}")),
        false => start::start(&config, director, speed, log),
    };
    let Started { instance, packets, control, words } = started.map_err(Failure::Failed)?;
    // without waiting: from now on it is this process that serves
    let mut output = Output::standard_output();
    for line in words.into_iter().chain([ready_line(&config)]) {
        if !output.put(&format!("{line}\n")) {
            log.warning(&format!("standard output has not taken the line {line:?}"));
        }
    }
    let reload = Reload::new(flags, config.clone());
    serve(&config, instance, Around { packets, control, signals, reload, log })
}

/// Serves to the end, and keeps what the next start needs.
fn serve(config: &Config, instance: Instance, mut around: Around<'_>) -> Result<(), Failure> {
    let (instance, ended) = around.serve(instance);
    let counts = format!("clock {}; {}", instance.director().clock(), instance.counters());
    let last = match ended {
        Ok(End::HandedOver) => return Ok(()),
        Ok(End::Signal(signal)) => Ok(format!("ended by {signal}; {counts}")),
        Err(complaint) => Err(Failure::Failed(format!("{complaint}; {counts}"))),
    };
    let saved = save(config, &instance, around.log);
    // the last line is the failure's, if there is one
    match (last, saved) {
        (Ok(line), saved) => {
            around.log.notice(&line);
            saved.map_err(Failure::Failed)
        }
        (Err(failure), Ok(())) => Err(failure),
        (Err(failure), Err(complaint)) => {
            around.log.error(&complaint);
            Err(failure)
        }
    }
}

/// Keeps the director for the next start.
fn save(config: &Config, instance: &Instance, log: &mut Log) -> Result<(), String> {
    let (path, connections) = (&config.state.value, instance.director().used());
    file::save(path, &Snapshot::of(instance, log))?;
    log.notice(&format!("saved {connections} connections in {}", path.display()));
    Ok(())
}

fn ready_line(config: &Config) -> String {
    let (service, protocol) = config.service.value;
    format!(
        "ready: {service} {}, {}, {} servers, {} slots, device {}, control socket {}",
        words::protocol_name(protocol),
        words::scheduler_name(config.scheduler.value),
        config.servers.len(),
        config.slots.value,
        config.device.value,
        config.socket.value.display(),
    )
}

fn say(line: &str) -> Result<(), Failure> {
    let mut out = io::stdout().lock();
    writeln!(out, "{line}")
        .and_then(|()| out.flush())
        .map_err(|error| Failure::Failed(format!("standard output can't be written: {error}")))
}
