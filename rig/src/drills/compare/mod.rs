//! Throughput beside what a user would pick instead: pgbench directly, through the kernel's address translation, through HAProxy
//! and through the director, over the same links and replicas, in turn; beside another build of the director, and beside a program
//! that does nothing but send packets on.

mod fill;
mod haproxy;
mod load;
mod nat;
mod numbers;
pub mod profile;
mod stacks;
mod table;
mod ways;

use crate::books::FINISHED;
use crate::lab::network;
use crate::lab::postgres::Postgres;
use crate::lab::{fail, Failure, Lab, REPLICAS};
use crate::timeline::Timeline;
use load::{drive, Kind, CONNECTIONS, EIGHT_CLIENTS, LARGE_ANSWERS, ONE_CLIENT};
use std::path::PathBuf;
use ways::{FAST, FASTER, SLOTS};

/// Every way is measured so often, unless another number is given.
const ROUNDS: usize = 7;
/// Seconds for one measurement.
const SECONDS: u32 = 2;

const KINDS: [Kind; 4] = [ONE_CLIENT, EIGHT_CLIENTS, LARGE_ANSWERS, CONNECTIONS];

/// What is to be compared.
#[derive(Debug, PartialEq, Eq)]
pub struct Order {
    rounds: usize,
    /// The folder of another build of nidhaagufd.
    beside: Option<PathBuf>,
}

impl Order {
    /// Reads the options, each with its value.
    pub fn read(options: &[&str]) -> Result<Order, Failure> {
        let mut order = Order { rounds: ROUNDS, beside: None };
        for option in options.chunks(2) {
            match (option, option.get(1).and_then(|value| value.parse::<usize>().ok())) {
                (["--rounds", _], Some(rounds @ 1..)) => order.rounds = rounds,
                (["--beside", folder], _) => order.beside = Some(folder.into()),
                _ => return fail(format!("this is no option: {}", option.join(" "))),
            }
        }
        Ok(order)
    }
}

/// Measures all ways, and prints them as tables.
pub fn run(lab: &Lab, timeline: &Timeline, order: &Order) -> Result<(), Failure> {
    timeline.title("Throughput: pgbench");
    network::make(lab, REPLICAS)?;
    let _replicas = Postgres::start_all(lab, REPLICAS)?;
    let (ways, rounds) = (ways::all(order.beside.as_deref()), order.rounds);
    timeline.tell(format!(
        "{REPLICAS} replicas run; {rounds} rounds of {SECONDS} s for each way and kind, in changing order"
    ));
    let mut results = vec![vec![Vec::new(); KINDS.len()]; ways.len()];
    for turn in turns(rounds, ways.len()) {
        let (way, kind) = (&ways[turn.way], &KINDS[turn.kind]);
        let standing = way.start(lab, kind, turn.round)?;
        results[turn.way][turn.kind].push(drive(lab, &standing, kind, SECONDS)?);
        standing.stop()?;
        if turn.is_last {
            timeline.tell(format!("round {} of {rounds} is done", turn.round + 1));
        }
    }
    table::print_rates(&ways, &KINDS, &results);
    table::print_beside(&ways, &KINDS, &results);
    print_notes(rounds);
    Ok(())
}

/// One measurement of one round.
#[derive(Clone, Copy, Debug, PartialEq, Eq)]
struct Turn {
    round: usize,
    kind: usize,
    way: usize,
    is_last: bool,
}

/// All measurements: in each round every kind, and for each kind all ways one right after another. Each round begins with another
/// way: none is always the first or always the last.
fn turns(rounds: usize, ways: usize) -> Vec<Turn> {
    let each = KINDS.len() * ways;
    let turn = |number: usize| {
        let (round, within) = (number / each, number % each);
        // the ways are 7 or 10, which have no divisor with 3 in common
        let way = (within + 3 * round) % ways;
        Turn { round, kind: within / ways, way, is_last: within + 1 == each }
    };
    (0..rounds * each).map(turn).collect()
}

fn print_notes(rounds: usize) {
    println!("\nMedians of {rounds} rounds; each ratio is of two rates of one round. CPU: of one core, by the program in the middle.");
    println!("Connections: each transaction has its own; for these nidhaagufd's clock ran {FAST} (with few slots {FASTER}) times as fast.");
    println!(
        "At its true clock a finished connection keeps its slot for {FINISHED} s: {SLOTS} slots take {} new ones a second over time.",
        SLOTS / FINISHED as usize
    );
}

#[cfg(test)]
mod tests {
    use super::*;
    use std::collections::HashSet;
    use std::path::Path;

    #[test]
    fn options_are_read_in_any_order() {
        let order = |rounds, beside: Option<&str>| Order { rounds, beside: beside.map(Into::into) };
        assert_eq!(Order::read(&[]), Ok(order(ROUNDS, None)));
        assert_eq!(Order::read(&["--rounds", "3"]), Ok(order(3, None)));
        let both = order(3, Some("/x"));
        assert_eq!(Order::read(&["--beside", "/x", "--rounds", "3"]), Ok(both));
        let wrong: [&[&str]; 4] =
            [&["--rounds"], &["--rounds", "0"], &["--beside"], &["--slots", "3"]];
        for options in wrong {
            assert!(Order::read(options).is_err(), "{options:?}");
        }
    }

    #[test]
    fn every_way_is_measured_in_every_round_and_begins_one() {
        for beside in [None, Some(Path::new("/x"))] {
            let ways = ways::all(beside).len();
            let turns = turns(ways, ways);
            let places: HashSet<_> =
                turns.iter().map(|turn| (turn.round, turn.kind, turn.way)).collect();
            let each = KINDS.len() * ways;
            assert_eq!((turns.len(), places.len()), (each * ways, each * ways));
            let first: HashSet<_> = turns.iter().step_by(each).map(|turn| turn.way).collect();
            assert_eq!(first.len(), ways);
            assert_eq!(turns.iter().filter(|turn| turn.is_last).count(), ways);
        }
    }
}
