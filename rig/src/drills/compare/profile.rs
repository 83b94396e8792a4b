//! Where the processor's time goes in the program on the TUN device, with eight clients: samples by perf.

use super::load::{drive, processes, EIGHT_CLIENTS};
use super::stacks::{shares, Spent};
use super::ways::{self, Standing, Way};
use super::Order;
use crate::lab::postgres::Postgres;
use crate::lab::{ensure, fail, network, output, Failure, Lab, Running, REPLICAS};
use crate::timeline::Timeline;
use programs::{PERF, SLEEP};
use std::path::Path;
use std::time::Duration;

/// Seconds of load for each program.
const SECONDS: u32 = 5;
/// Samples a second of the processor's time. The clock of the system takes them, which every machine has.
const SAMPLES: &str = "1999";
/// So many must have been taken.
const FEWEST: usize = 1000;
/// How long perf may take to write its file.
const PATIENCE: Duration = Duration::from_secs(30);

/// Tells for each program on the device what part of its time falls to what.
pub fn run(lab: &Lab, timeline: &Timeline, order: &Order) -> Result<(), Failure> {
    timeline.title("Where the processor's time goes: 8 clients, pgbench, `select 1`");
    network::make(lab, REPLICAS)?;
    let _replicas = Postgres::start_all(lab, REPLICAS)?;
    timeline.tell(format!("{REPLICAS} replicas run; {SECONDS} s for each program"));
    let ways = ways::on_the_device(order.beside.as_deref());
    let lines = ways.iter().map(|way| line(lab, way)).collect::<Result<Vec<String>, Failure>>()?;
    let names = Spent::ALL.map(Spent::name).join(" | ");
    println!("\n| of the program's time | µs a transaction | {names} |");
    println!("|---|---|{}", "---|".repeat(Spent::ALL.len()));
    lines.iter().for_each(|line| println!("{line}"));
    Ok(())
}

/// A program's line of the table.
fn line(lab: &Lab, way: &Way) -> Result<String, Failure> {
    let standing = way.start(lab, &EIGHT_CLIENTS, 0)?;
    let data = lab.run.join("perf.data");
    let mut perf = start_perf(lab, &standing, &data)?;
    let measured = drive(lab, &standing, &EIGHT_CLIENTS, SECONDS)?;
    let status = perf.wait(PATIENCE)?;
    ensure(status.success(), format!("perf ended with {status}: {}", lab.last_lines("perf.log")))?;
    let Some(cost) = measured.cost() else { return fail("there is no program in the middle") };
    let mut line = format!("| {} | {cost:.1} |", way.name());
    let (samples, parts) = shares(&script(&data)?);
    ensure(samples >= FEWEST, format!("perf took {samples} samples, and {FEWEST} are needed"))?;
    parts.iter().for_each(|part| line += &format!(" {:.0}% |", 100.0 * part));
    standing.stop()?;
    Ok(line)
}

/// perf, which takes samples of the program in the middle for as long as the load goes on.
fn start_perf(lab: &Lab, standing: &Standing, data: &Path) -> Result<Running, Failure> {
    let Some(program) = standing.program else { return fail("there is no program in the middle") };
    let numbers: Vec<String> =
        processes(lab, program)?.into_iter().map(|(number, _)| number).collect();
    let mut command = PERF.command();
    command.args([
        "record",
        "-q",
        "-e",
        "cpu-clock",
        "-F",
        SAMPLES,
        "-g",
        "-p",
        &numbers.join(","),
    ]);
    command.arg("-o").arg(data).args(["--", SLEEP.name(), &SECONDS.to_string()]);
    Running::start(command.stdout(lab.log("perf.log")?).stderr(lab.log("perf.log")?))
}

/// The samples as text, with the names as they stand in the program.
fn script(data: &Path) -> Result<String, Failure> {
    let mut command = PERF.command();
    command.args(["script", "--no-demangle", "--no-inline", "-F", "ip,sym,dso", "-i"]).arg(data);
    output(&mut command)
}
