//! Runs a drill in the laboratory that `rig/drill` has made.

use rig::drills::compare::{self, profile, Order};
use rig::drills::{death, drain, flood, forged, impaired, operator, ports, upgrade};
use rig::lab::{fail, Failure, Lab};
use rig::timeline::Timeline;
use std::process::ExitCode;

const USAGE: &str =
    "usage: rig drain [--short] | ports [--short] | upgrade [--short] | flood [--short] | impaired [SEED] | death |
    forged | operator | all | short |
    compare [--rounds N] [--beside DIRECTORY] | profile [--beside DIRECTORY]";

/// What becomes of which packet in the drill with bad links, unless another seed is given.
const SEED: u64 = 1;

/// The drills of `all`.
const ALL: [&str; 8] =
    ["drain", "ports", "upgrade", "flood", "impaired", "death", "forged", "operator"];
/// The drills of `short`, each in its short form.
const SHORT: [&str; 4] = ["drain", "ports", "upgrade", "flood"];

fn main() -> ExitCode {
    let words: Vec<String> = std::env::args().skip(1).collect();
    let words: Vec<&str> = words.iter().map(String::as_str).collect();
    let timeline = Timeline::begin();
    let result = Lab::from_environment().and_then(|lab| run(&lab, &timeline, &words));
    timeline.finish(&words.join(" "), result)
}

fn run(lab: &Lab, timeline: &Timeline, words: &[&str]) -> Result<(), Failure> {
    match words {
        ["all"] => ALL.iter().try_for_each(|drill| run(lab, timeline, &[drill])),
        ["short"] => SHORT.iter().try_for_each(|drill| run(lab, timeline, &[drill, "--short"])),
        [name, ..] => in_part(lab, name, |part| run_one(part, timeline, words)),
        [] => fail(USAGE),
    }
}

fn run_one(part: &Lab, timeline: &Timeline, words: &[&str]) -> Result<(), Failure> {
    match words {
        ["drain"] => drain::run(part, timeline, drain::Pace::FULL),
        ["drain", "--short"] => drain::run(part, timeline, drain::Pace::SHORT),
        ["ports"] => ports::run(part, timeline, ports::Pace::FULL),
        ["ports", "--short"] => ports::run(part, timeline, ports::Pace::SHORT),
        ["upgrade"] => upgrade::run(part, timeline, upgrade::Pace::FULL),
        ["upgrade", "--short"] => upgrade::run(part, timeline, upgrade::Pace::SHORT),
        ["flood"] => flood::run(part, timeline, flood::Pace::FULL),
        ["flood", "--short"] => flood::run(part, timeline, flood::Pace::SHORT),
        ["impaired"] => impaired::run(part, timeline, SEED),
        ["impaired", seed] => {
            let seed = seed.parse().map_err(|_| Failure(USAGE.into()))?;
            impaired::run(part, timeline, seed)
        }
        ["death"] => death::run(part, timeline),
        ["forged"] => forged::run(part, timeline),
        ["operator"] => operator::run(part, timeline),
        ["compare", options @ ..] => compare::run(part, timeline, &Order::read(options)?),
        ["profile", options @ ..] => profile::run(part, timeline, &Order::read(options)?),
        _ => fail(USAGE),
    }
}

/// Runs a drill in its part of the laboratory; a failure is told with what the director wrote last.
fn in_part(
    lab: &Lab,
    name: &str,
    drill: impl FnOnce(&Lab) -> Result<(), Failure>,
) -> Result<(), Failure> {
    let part = lab.part(name)?;
    drill(&part).map_err(|failure| Failure(format!("{failure}{}", part.last_lines("director.log"))))
}
