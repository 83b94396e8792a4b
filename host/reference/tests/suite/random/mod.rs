//! Seeded random runs: the book checks every call and the state stays sound.

mod choose;
mod judge;
mod packet;
mod rng;
mod tally;
mod wild;

use crate::support::Director;
use choose::{deed, good_setup};
pub use judge::pick;
use reference::book::{check, Book};
use reference::*;
pub use rng::Rng;
use tally::Tally;

/// One list of calls from one seed.
struct Run {
    rng: Rng,
    director: Director,
    book: Book,
    tally: Tally,
}

impl Run {
    fn new(seed: u64) -> Run {
        Run {
            rng: Rng::new(seed),
            director: Director::tcp(&[1], 1),
            book: Book::new(),
            tally: Tally::default(),
        }
    }

    /// One call: chosen, made, judged.
    fn step(&mut self, number: usize) {
        // a list begins with an accepted setup
        let deed = match self.book.settings {
            None => good_setup(&mut self.rng),
            Some(_) => deed(&mut self.rng, &self.director),
        };
        let before = self.director.clone();
        let mut packet = deed.packet().to_vec();
        let answer = deed.make(&mut self.director, &mut packet);
        self.tally.add(answer);
        let place = || format!("call {number}, {deed:?}, answered {answer:?}");
        let counts = self.director.state.servers.map(|server| server.count);
        if let Err(complaint) = check(&mut self.book, deed.call(), answer, &packet, &counts) {
            panic!("{complaint}: {}", place());
        }
        assert!(self.director.sound(), "{}", place());
        assert_ne!(answer, Answer::Refused(15), "{}", place());
        judge::effects(&before, &self.director, &deed, answer, &packet);
    }
}

#[test]
fn lists_of_calls_with_the_book() {
    let mut tally = Tally::default();
    for seed in 1..=5 {
        let mut run = Run::new(seed);
        for number in 0..60_000 {
            run.step(number);
        }
        tally.join(&run.tally);
    }
    assert_eq!(tally.calls(), 300_000);
    println!("{tally:?}");
    tally.assert_all_seen();
}
