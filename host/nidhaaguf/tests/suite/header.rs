//! What the C header says of refusals and counters is what the wrapper goes by.

use nidhaaguf::raw::COUNTERS;
use nidhaaguf::{Change, Counters, Refusal, Way};
use programs::BASH;
use std::fmt::Write;

/// Compiles header.c of the folder that it is given, and runs it.
const COMPILE_AND_RUN: &str = r#"
    set -eu
    program=$(mktemp)
    trap 'rm -f "$program"' EXIT
    cc -std=c11 -Wall -Wextra -Werror -I "$1/../../include" "$1/tests/suite/header.c" -o "$program"
    "$program"
"#;

/// What the C program prints.
fn printed() -> String {
    let output = BASH.run(&["-c", COMPILE_AND_RUN, "bash", env!("CARGO_MANIFEST_DIR")]);
    assert!(output.status.success(), "{}", String::from_utf8_lossy(&output.stderr));
    String::from_utf8(output.stdout).expect("a text")
}

#[test]
fn refusals_and_counters_are_the_headers() {
    // each counter holds its own place
    let counters = Counters::of_words(std::array::from_fn(|place| place as u64));
    let mut text = format!("{COUNTERS} counters\n");
    for (number, way) in [Way::Inbound, Way::Outbound].into_iter().enumerate() {
        for change in [Change::Opened, Change::Kept, Change::Ended] {
            writeln!(text, "change {number} {}", counters.accepted(way, change)).unwrap();
        }
        for refusal in Refusal::ALL {
            let place = counters.refused(way, refusal);
            writeln!(text, "refusal {number} {} {place}", refusal.number()).unwrap();
        }
    }
    assert_eq!(printed(), text);
}
