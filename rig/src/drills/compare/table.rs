//! What was measured, as tables. A ratio is taken within a round, where both ways met the same machine; then the middle one of the
//! rounds is told, with the least and the greatest.

use super::load::{Kind, Measured};
use super::numbers::{grouped, Spread};
use super::ways::Way;

/// What was measured: by way, by kind of load, by round.
pub type Results = Vec<Vec<Vec<Measured>>>;

/// The rates of two ways, each divided within its round.
fn ratios(here: &[Measured], beside: &[Measured]) -> Spread {
    Spread::of(here.iter().zip(beside).map(|(here, beside)| here.rate / beside.rate))
}

/// For each kind of load a table of all ways beside the direct one.
pub fn print_rates(ways: &[Way], kinds: &[Kind], results: &Results) {
    for (number, kind) in kinds.iter().enumerate() {
        println!(
            "\n| {} | a second | of the direct rate | in the rounds | CPU | µs a transaction |",
            kind.title
        );
        println!("|---|---|---|---|---|---|");
        for (way, measured) in ways.iter().zip(results) {
            println!("{}", rate_line(way, &measured[number], &results[0][number]));
        }
    }
}

fn rate_line(way: &Way, here: &[Measured], direct: &[Measured]) -> String {
    let rate = Spread::of(here.iter().map(|one| one.rate)).median;
    let ratios = ratios(here, direct);
    let range = if *way == Way::Direct { String::new() } else { format!(" {}", ratios.range()) };
    let of_program = |number: fn(&Measured) -> Option<f64>| {
        let numbers: Option<Vec<f64>> = here.iter().map(number).collect();
        numbers.map(|numbers| Spread::of(numbers.into_iter()).median)
    };
    let share = of_program(|one| one.share);
    let share = share.map_or(String::new(), |share| format!(" {:.0}%", 100.0 * share));
    let cost = of_program(Measured::cost).map_or(String::new(), |cost| format!(" {cost:.1}"));
    let (name, rate) = (way.name(), grouped(rate));
    format!("| {name} | {rate} | {:.2} |{range} |{share} |{cost} |", ratios.median)
}

/// The director beside the other ways: its rate divided by theirs.
pub fn print_beside(ways: &[Way], kinds: &[Kind], results: &Results) {
    let titles: Vec<&str> = kinds.iter().map(|kind| kind.title).collect();
    println!("\n| beside one another | {} |", titles.join(" | "));
    println!("|---|{}", "---|".repeat(kinds.len()));
    for (here, way) in ways.iter().enumerate() {
        for (beside, other) in ways.iter().enumerate().filter(|(_, other)| is_told(way, other)) {
            let cells: Vec<String> = (0..kinds.len())
                .map(|kind| ratios(&results[here][kind], &results[beside][kind]))
                .map(|ratios| format!("{:.2} ({})", ratios.median, ratios.range()))
                .collect();
            println!("| {} / {} | {} |", way.name(), other.name(), cells.join(" | "));
        }
    }
}

/// Whether a way is told beside another: this build of the director beside what a user would pick instead, beside the other build
/// with the same table, and beside the limit.
fn is_told(way: &Way, other: &Way) -> bool {
    let Way::Director(table, None) = way else { return false };
    match other {
        Way::Direct => false,
        Way::Nat | Way::Haproxy | Way::Copier => true,
        Way::Director(others, build) => build.is_some() && others == table,
    }
}

#[cfg(test)]
mod tests {
    use super::super::ways::Table;
    use super::*;
    use std::path::PathBuf;

    fn measured(rates: &[f64]) -> Vec<Measured> {
        rates.iter().map(|&rate| Measured { rate, share: Some(rate / 100.0) }).collect()
    }

    /// The ratio of the medians would be 0.5, and is in no round.
    #[test]
    fn ratios_are_taken_within_a_round() {
        let (here, beside) = (measured(&[10.0, 20.0, 90.0]), measured(&[10.0, 80.0, 40.0]));
        let want = Spread { median: 1.0, least: 0.25, greatest: 2.25 };
        assert_eq!(ratios(&here, &beside), want);
    }

    #[test]
    fn a_line_tells_rate_ratio_range_and_share() {
        let (here, direct) = (measured(&[30.0, 10.0, 20.0]), measured(&[40.0, 40.0, 40.0]));
        let line = rate_line(&Way::Copier, &here, &direct);
        assert!(line.ends_with(" | 20 | 0.50 | 0.25 to 0.75 | 20% | 10000.0 |"), "{line}");
        let none = [Measured { rate: 1234.4, share: None }];
        assert_eq!(rate_line(&Way::Direct, &none, &none), "| directly | 1,234 | 1.00 | | | |");
    }

    #[test]
    fn this_build_is_told_beside_the_other_with_the_same_table() {
        let build = |table, other: bool| Way::Director(table, other.then(|| PathBuf::from("/x")));
        assert!(is_told(&build(Table::Small, false), &build(Table::Small, true)));
        assert!(!is_told(&build(Table::Small, false), &build(Table::Large, true)));
        assert!(
            !is_told(&build(Table::Small, true), &Way::Nat) && !is_told(&Way::Nat, &Way::Copier)
        );
    }
}
