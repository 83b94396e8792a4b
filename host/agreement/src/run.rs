//! Running cases.

use crate::call::Call;
use crate::case::{Case, Kind};
use crate::compare;
use crate::counted::Counted;
use crate::edges::{self, Moment};
use crate::sides::{Reference, Side};
use crate::tally::Tally;
use crate::world::World;
use crate::worlds::breaks;
use reference::book::Book;

/// What a run has met.
#[derive(Clone, Debug)]
pub struct Met {
    pub cases: u64,
    pub tally: Tally,
    pub edges: Counted,
    /// How many times 15 was answered, by the rule that was broken.
    pub broken: Counted,
}

impl Default for Met {
    /// Nothing yet.
    fn default() -> Met {
        let (edges, broken) = (edges::of_calls(), breaks::rules());
        Met { cases: 0, tally: Tally::default(), edges, broken }
    }
}

/// A case on which the sides don't agree, up to the call where they part.
#[derive(Debug)]
pub struct Failure<C> {
    pub seed: u64,
    pub number: u64,
    pub kind: Kind,
    pub first: World,
    pub calls: Vec<C>,
    pub complaint: String,
}

/// Runs cases from 0 on until so many calls are made.
pub fn run(side: &dyn Side, seed: u64, calls: usize) -> Result<Met, Box<Failure<Call>>> {
    let mut met = Met::default();
    while met.tally.calls() < calls {
        run_case(side, seed, met.cases, &mut met)?;
        met.cases += 1;
    }
    Ok(met)
}

/// Names the case when one of the sides panics in it: the option that replays it, seed and number.
pub(crate) struct Naming(pub &'static str, pub u64, pub u64);

impl Drop for Naming {
    fn drop(&mut self) {
        if std::thread::panicking() {
            eprintln!("a panic in --seed {} --{} {}", self.1, self.0, self.2);
        }
    }
}

/// Runs one case.
pub fn run_case(
    side: &dyn Side,
    seed: u64,
    number: u64,
    met: &mut Met,
) -> Result<(), Box<Failure<Call>>> {
    let _naming = Naming("case", seed, number);
    let mut case = Case::new(seed, number);
    let mut world = case.first.clone();
    let mut book = book_for(case.kind);
    let mut calls = Vec::new();
    while let Some(call) = case.next(&world) {
        calls.push(call);
        let call = &calls[calls.len() - 1];
        let stepped = match compare::step(side, call, &world, book.as_mut()) {
            Ok(stepped) => stepped,
            Err(complaint) => {
                let (kind, first) = (case.kind, case.first);
                return Err(Box::new(Failure { seed, number, kind, first, calls, complaint }));
            }
        };
        let told = stepped.told;
        met.tally.add(call, told);
        let (left, after) = (&stepped.packet, &stepped.world);
        met.edges.add(Moment { before: &world, call, told, left, after }.edges());
        met.broken.add(case.kind.broken_rules(told));
        world = stepped.world;
    }
    Ok(())
}

/// The book goes along with lists that begin with an accepted setup.
pub fn book_for(kind: Kind) -> Option<Book> {
    (kind == Kind::List).then(Book::new)
}

/// All calls of a case. They are drawn along the reference, so no library can change them.
pub fn calls_of(seed: u64, number: u64) -> (Kind, World, Vec<Call>) {
    let mut case = Case::new(seed, number);
    let mut world = case.first.clone();
    let mut calls = Vec::new();
    while let Some(call) = case.next(&world) {
        let mut row = call.row(&world);
        let mut packet = call.packet().to_vec();
        let told = Reference.make(&call, &mut world.state, &mut row, &mut packet);
        if call.keeps_row(told) {
            world.row = row;
        }
        calls.push(call);
    }
    (case.kind, case.first, calls)
}
