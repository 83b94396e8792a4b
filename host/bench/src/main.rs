//! `bench SIDE CALL SLOTS SERVERS REPS`: makes a sound state over a nearly full table, and repeats one call on it.
//! `bench SIDE sum BYTES REPS`: repeats the one's complement sum of some bytes.
//!
//! SIDE is library, reference or plain; CALL is kept, outbound, opening, renewal or tick. Or SIDE is serve or burst: then it is one
//! call with REPS packets, kept, outbound or opening. With `--one-port` each client has an address of its own and all have one port,
//! instead of few addresses with many ports; with `--first` the packets are of the client in the first slot, not in the last that is
//! used; with `--free=N` the last N slots are free and not one; with `--scheduler=N` the scheduler is N and not 1; with
//! `--worst-weights` the weights aren't 1 but such that their greatest common divisor takes longest, with `--no-weight` all are 0, so
//! that an opening gets 14. Count two runs with different REPS under callgrind: their difference is the calls alone (the script
//! `bench` at the top of the repository does that). With `--time` it prints nanoseconds a call or a sum instead, of the first three
//! sides.

mod many;
mod plain;
mod scene;
mod sides;
mod sum;

use scene::{Call, Clients, Plan, Scene, Weights};
use std::time::Instant;

const USAGE: &str = "usage: bench library|reference|plain kept|outbound|opening|renewal|tick SLOTS SERVERS REPS [FLAG..]
       bench serve|burst kept|outbound|opening SLOTS SERVERS PACKETS [FLAG..]
       bench library|reference|plain sum BYTES REPS [--time]
flags: --time --one-port --first --free=N --scheduler=N --worst-weights --no-weight";

fn main() {
    let words: Vec<String> = std::env::args().skip(1).collect();
    let (flags, words): (Vec<&str>, Vec<&str>) =
        words.iter().map(String::as_str).partition(|word| word.starts_with("--"));
    let timed = flags.contains(&"--time");
    match words[..] {
        [side, "sum", bytes, reps] => {
            let one = sum::of_side(side).unwrap_or_else(|| usage());
            let (bytes, reps) = (number(bytes), number(reps));
            tell(reps, timed, || sum::repeated(one, bytes, reps));
        }
        [side, call, slots, servers, reps] => {
            let call = Call::named(call).unwrap_or_else(|| usage());
            let scene = Scene::new(call, plan(number(slots), number(servers), &flags));
            let reps = number(reps);
            if timed && ["serve", "burst"].contains(&side) {
                usage();
            }
            tell(reps, timed, || run(&scene, side, reps));
        }
        _ => usage(),
    }
}

/// Prints what was answered, or how many nanoseconds one of the repetitions took.
fn tell(reps: usize, timed: bool, run: impl FnOnce() -> u64) {
    let begin = Instant::now();
    let told = run();
    let each = begin.elapsed().as_nanos() as f64 / reps.max(1) as f64;
    match timed {
        true => println!("{each:.0}"),
        false => println!("{told}"),
    }
}

fn number(text: &str) -> usize {
    text.parse().unwrap_or_else(|_| usage())
}

fn plan(slots: usize, servers: usize, flags: &[&str]) -> Plan {
    let value = |flag: &str| flags.iter().find_map(|word| word.strip_prefix(flag)).map(number);
    let given = |flag: &str| flags.contains(&flag);
    Plan {
        slots,
        servers,
        free: value("--free=").unwrap_or(1),
        clients: if given("--one-port") { Clients::OnePort } else { Clients::FewAddresses },
        first: given("--first"),
        scheduler: value("--scheduler=").unwrap_or(1) as u8,
        weights: match (given("--worst-weights"), given("--no-weight")) {
            (false, false) => Weights::Equal,
            (true, false) => Weights::Worst,
            (false, true) => Weights::None,
            (true, true) => usage(),
        },
    }
}

fn usage() -> ! {
    eprintln!("{USAGE}");
    std::process::exit(2);
}

/// The call, repeated on the same state, or one call with so many packets; what it answered is printed, so that nothing is left out
/// as unused.
fn run(scene: &Scene, side: &str, reps: usize) -> u64 {
    let one: fn(&mut Scene) -> u64 = match side {
        "library" => sides::library,
        "reference" => sides::reference,
        "plain" if scene.call != Call::Outbound => sides::plain,
        "serve" if scene.call.is_of_many() => return many::served(&mut scene.clone(), reps),
        "burst" if scene.call.is_of_many() => return many::burst(&mut scene.clone(), reps),
        _ => usage(),
    };
    let mut scratch = scene.clone();
    let mut told = 0;
    for _ in 0..reps {
        scratch.again(scene);
        told += one(&mut scratch);
    }
    told
}
