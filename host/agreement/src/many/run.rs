//! Running cases of bursts and serves.

use super::call::{Form, Many};
use super::compare::step;
use super::draw::Case;
use super::edges::{self, Moment};
use super::sides::ManySide;
use super::singly::single_call;
use super::wanted::{wanted, Wanted};
use crate::call::Call;
use crate::case::Kind;
use crate::counted::Counted;
use crate::run::{Failure, Naming};
use crate::tally::Tally;
use crate::world::World;
use crate::worlds::breaks;

/// What a run has met, of bursts or of serves.
#[derive(Clone, Debug)]
pub struct MetOf {
    pub calls: usize,
    pub packets: usize,
    pub tally: Tally,
    pub edges: Counted,
    /// How many times 15 was answered, by the rule that was broken.
    pub broken: Counted,
}

/// What a run has met.
#[derive(Clone, Debug)]
pub struct Met {
    pub cases: u64,
    pub bursts: MetOf,
    pub serves: MetOf,
}

impl MetOf {
    fn new(edges: Counted) -> MetOf {
        let (tally, broken) = (Tally::of_many(), breaks::rules());
        MetOf { calls: 0, packets: 0, tally, edges, broken }
    }

    fn add(&mut self, kind: Kind, moment: &Moment) {
        let Wanted { singly, .. } = moment.wanted;
        let clock = singly.clock;
        self.calls += 1;
        self.packets += singly.steps.len();
        self.tally.add(&Call::Tick { clock }, singly.tick);
        self.broken.add(kind.broken_rules(singly.tick));
        for step in &singly.steps {
            self.tally.add(&single_call(step.way, &[], clock), step.told);
        }
    }
}

impl Default for Met {
    /// Nothing yet.
    fn default() -> Met {
        let (bursts, serves) = (MetOf::new(edges::of_bursts()), MetOf::new(edges::of_serves()));
        Met { cases: 0, bursts, serves }
    }
}

impl Met {
    pub fn packets(&self) -> usize {
        self.bursts.packets + self.serves.packets
    }

    fn add(&mut self, kind: Kind, moment: &Moment) {
        match moment.many.form {
            Form::Burst(ref burst) => {
                self.bursts.add(kind, moment);
                self.bursts.edges.add(moment.edges_of_burst(burst));
            }
            Form::Serve(ref serve) => {
                self.serves.add(kind, moment);
                self.serves.edges.add(moment.edges_of_serve(serve));
            }
        }
    }
}

/// Runs cases from 0 on until so many packets are taken.
pub fn run(side: &dyn ManySide, seed: u64, packets: usize) -> Result<Met, Box<Failure<Many>>> {
    let mut met = Met::default();
    while met.packets() < packets {
        run_case(side, seed, met.cases, &mut met)?;
        met.cases += 1;
    }
    Ok(met)
}

/// Runs one case.
pub fn run_case(
    side: &dyn ManySide,
    seed: u64,
    number: u64,
    met: &mut Met,
) -> Result<(), Box<Failure<Many>>> {
    let _naming = Naming("many", seed, number);
    let mut case = Case::new(seed, number);
    let mut world = case.first.clone();
    let mut calls = Vec::new();
    while let Some(many) = case.next(&world) {
        calls.push(many);
        let many = &calls[calls.len() - 1];
        let wanted = match step(side, many, &world) {
            Ok(wanted) => wanted,
            Err(complaint) => {
                let (kind, first) = (case.kind, case.first);
                return Err(Box::new(Failure { seed, number, kind, first, calls, complaint }));
            }
        };
        met.add(case.kind, &Moment { many, wanted: &wanted });
        world = wanted.singly.world;
    }
    Ok(())
}

/// All calls of a case. They are drawn along the reference, so no library can change them.
pub fn calls_of(seed: u64, number: u64) -> (Kind, World, Vec<Many>) {
    let mut case = Case::new(seed, number);
    let mut world = case.first.clone();
    let mut calls = Vec::new();
    while let Some(many) = case.next(&world) {
        world = wanted(&many, &world).singly.world;
        calls.push(many);
    }
    (case.kind, case.first, calls)
}

/// Makes the calls, in order. The complaint, if they don't go well.
pub fn replay(side: &dyn ManySide, first: &World, calls: &[Many]) -> Option<String> {
    let mut world = first.clone();
    for many in calls {
        match step(side, many, &world) {
            Ok(wanted) => world = wanted.singly.world,
            Err(complaint) => return Some(complaint),
        }
    }
    None
}
