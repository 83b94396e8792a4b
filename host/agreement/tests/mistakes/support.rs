//! How a director with a mistake is made, and found.

use agreement::call::{Call, Told};
use agreement::report;
use agreement::run::{calls_of, run};
use agreement::shorten::{replay, shorten};
use agreement::sides::{Reference, Side};
use reference::{weights, State, PLACES};

/// What a call is handed and, once it is made, what it has left.
pub struct Made<'a> {
    pub call: &'a Call,
    pub before: State,
    pub state: &'a mut State,
    pub row: &'a mut [u32],
    pub packet: &'a mut [u8],
}

/// The reference with a mistake made after each call.
pub struct Mistaken(pub fn(&mut Made, Told) -> Told);

impl Side for Mistaken {
    fn make(&self, call: &Call, state: &mut State, row: &mut [u32], packet: &mut [u8]) -> Told {
        let before = *state;
        let told = Reference.make(call, state, row, packet);
        (self.0)(&mut Made { call, before, state, row, packet }, told)
    }
}

impl Made<'_> {
    pub fn header(&self) -> usize {
        usize::from(self.packet[0] & 15) * 4
    }

    pub fn is_tcp(&self) -> bool {
        self.before.service.protocol == 6
    }

    /// The walk goes on to the next number in the ring, whatever stands there.
    pub fn step_on(&mut self) {
        let n = i64::from(self.state.service.servers);
        self.state.walk.place = (self.state.walk.place + 1) % n;
    }

    pub fn put_sum(&mut self, at: usize, wrong: [u8; 2], written: [u8; 2]) {
        let at = self.header() + at;
        if self.packet[at..at + 2] == wrong {
            self.packet[at..at + 2].copy_from_slice(&written);
        }
    }
}

pub fn refused(refusal: u32) -> Told {
    Told { refusal, number: 0, change: 0 }
}

fn put_weights(state: &mut State, given: [u16; PLACES]) {
    let places = state.servers.iter_mut().zip(given);
    places.for_each(|(server, weight)| server.weight = weight);
    weights::make_true(state);
}

/// The reference's call while no other server can be picked.
pub fn make_picking(
    server: usize,
    call: &Call,
    state: &mut State,
    row: &mut [u32],
    packet: &mut [u8],
) -> Told {
    let given = state.servers.map(|server| server.weight);
    let mut alone = [0; PLACES];
    // the walk's level stays in its range
    alone[server] = state.largest_weight.max(1);
    put_weights(state, alone);
    let told = Reference.make(call, state, row, packet);
    put_weights(state, given);
    told
}

/// Runs it until the mistake is found; the shortened case must fail again when it is drawn anew.
pub fn is_found(side: &dyn Side, most_calls: usize) -> String {
    let failure = run(side, 1, 400_000).expect_err("the mistake was not found");
    let all = (0..failure.calls.len()).collect();
    let places = shorten(all, |places| {
        replay(side, failure.kind, &failure.first, &failure.calls, places).is_some()
    });
    assert!(places.len() <= most_calls, "{}", report::failure(side, &failure));
    let (kind, first, calls) = calls_of(failure.seed, failure.number);
    assert_eq!(calls[..failure.calls.len()], failure.calls[..]);
    replay(side, kind, &first, &calls, &places).expect("the shortened case doesn't fail")
}
