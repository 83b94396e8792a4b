//! What the impairing relay does with each packet: it loses it, doubles it, holds it back behind later ones, or passes it on.
//! The choices come from a seeded generator; where the packets come from and go to is the caller's affair.

use random::Rng;
use std::fmt;
use std::time::{Duration, Instant};

/// A packet that is held back goes on after this time, also where nothing has overtaken it.
pub const LONGEST_HOLD: Duration = Duration::from_millis(5);

/// How many packets in a thousand are lost, duplicated and held back.
#[derive(Clone, Copy, Debug)]
pub struct Rates {
    /// Lost.
    pub loss: u64,
    /// Sent twice.
    pub duplicate: u64,
    /// Held back behind the next one to three packets of their flow.
    pub reorder: u64,
}

/// What a relay has done so far.
#[derive(Clone, Copy, Default, Debug, PartialEq, Eq)]
pub struct Counts {
    /// All packets that came.
    pub read: u64,
    /// Packets that went no further.
    pub lost: u64,
    /// Packets that were sent twice.
    pub duplicated: u64,
    /// Held back, and overtaken by at least one later packet of the same flow.
    pub reordered: u64,
    /// Held back for the longest time, with no later packet of the same flow to overtake it.
    pub delayed: u64,
}

impl fmt::Display for Counts {
    fn fmt(&self, f: &mut fmt::Formatter) -> fmt::Result {
        let Counts { read, lost, duplicated, reordered, delayed } = self;
        write!(f, "read {read}, lost {lost}, duplicated {duplicated}, reordered {reordered}, delayed {delayed}")
    }
}

impl Counts {
    /// Reads what `Display` writes.
    pub fn parse(line: &str) -> Option<Counts> {
        let names = ["read ", "lost ", "duplicated ", "reordered ", "delayed "];
        let mut parts = line.trim().split(", ");
        let mut values = [0; 5];
        for (value, name) in values.iter_mut().zip(names) {
            *value = parts.next()?.strip_prefix(name)?.parse().ok()?;
        }
        let [read, lost, duplicated, reordered, delayed] = values;
        parts.next().is_none().then_some(Counts { read, lost, duplicated, reordered, delayed })
    }
}

/// A packet that waits for later ones of its flow.
struct Held {
    packet: Vec<u8>,
    /// How many packets of its flow it still lets pass.
    behind: u64,
    overtaken: bool,
    until: Instant,
}

/// The relay: packets go in one by one, and come out by way of `send`.
pub struct Relay {
    generator: Rng,
    rates: Rates,
    held: Vec<Held>,
    counts: Counts,
}

impl Relay {
    /// A relay whose choices follow from the seed and the packets' order alone.
    pub fn new(seed: u64, rates: Rates) -> Relay {
        Relay { generator: Rng::new(seed), rates, held: Vec::new(), counts: Counts::default() }
    }

    /// What was done so far.
    pub fn counts(&self) -> Counts {
        self.counts
    }

    /// When the first of the held packets has to go on.
    pub fn next_release(&self) -> Option<Instant> {
        self.held.iter().map(|held| held.until).min()
    }

    /// Takes a packet, and sends what is to go on now.
    pub fn take(&mut self, packet: &[u8], now: Instant, send: &mut dyn FnMut(&[u8])) {
        self.counts.read += 1;
        let Rates { loss, duplicate, reorder } = self.rates;
        let drawn = self.generator.below(1000) as u64;
        if drawn < loss {
            self.counts.lost += 1;
        } else if drawn < loss + duplicate {
            self.counts.duplicated += 1;
            self.pass(packet, send);
            send(packet);
        } else if drawn < loss + duplicate + reorder {
            let behind = 1 + self.generator.below(3) as u64;
            self.held.push(Held {
                packet: packet.to_vec(),
                behind,
                overtaken: false,
                until: now + LONGEST_HOLD,
            });
        } else {
            self.pass(packet, send);
        }
    }

    /// Sends a packet, and after it those that have let enough of their flow pass with it.
    fn pass(&mut self, packet: &[u8], send: &mut dyn FnMut(&[u8])) {
        send(packet);
        for held in &mut self.held {
            if flow(&held.packet) == flow(packet) {
                held.behind -= 1;
                held.overtaken = true;
            }
        }
        self.let_go(|held| held.behind == 0, send);
    }

    /// Sends the packets that have been held for the longest time.
    pub fn release(&mut self, now: Instant, send: &mut dyn FnMut(&[u8])) {
        self.let_go(|held| held.until <= now, send);
    }

    /// Sends all that are held: the relay ends.
    pub fn release_all(&mut self, send: &mut dyn FnMut(&[u8])) {
        self.let_go(|_| true, send);
    }

    fn let_go(&mut self, goes: impl Fn(&Held) -> bool, send: &mut dyn FnMut(&[u8])) {
        let (going, held) = std::mem::take(&mut self.held).into_iter().partition(goes);
        self.held = held;
        let going: Vec<Held> = going;
        for held in going {
            let counted =
                if held.overtaken { &mut self.counts.reordered } else { &mut self.counts.delayed };
            *counted += 1;
            send(&held.packet);
        }
    }
}

/// What tells one direction of one connection from others: addresses and ports. Nothing for a packet too short to have them.
fn flow(packet: &[u8]) -> Option<(&[u8], &[u8])> {
    let header = 4 * usize::from(packet.first()? & 15);
    Some((packet.get(12..20)?, packet.get(header..header + 4)?))
}

#[cfg(test)]
mod tests {
    use super::*;

    /// A packet of flow `port`, with its number as last byte.
    fn packet(port: u8, number: u8) -> Vec<u8> {
        let mut bytes = vec![0; 41];
        (bytes[0], bytes[21], bytes[40]) = (0x45, port, number);
        bytes
    }

    /// Hands packets of one flow to a relay, and tells the numbers in the order in which they came out.
    fn run(relay: &mut Relay, numbers: std::ops::Range<u8>) -> Vec<u8> {
        let mut out = Vec::new();
        let now = Instant::now();
        for number in numbers {
            relay.take(&packet(1, number), now, &mut |sent| out.push(sent[40]));
        }
        relay.release_all(&mut |sent| out.push(sent[40]));
        out
    }

    #[test]
    fn rates_of_zero_change_nothing() {
        let mut relay = Relay::new(1, Rates { loss: 0, duplicate: 0, reorder: 0 });
        assert_eq!(run(&mut relay, 0..200), (0..200).collect::<Vec<u8>>());
        assert_eq!(relay.counts(), Counts { read: 200, ..Counts::default() });
    }

    #[test]
    fn what_comes_out_is_what_the_counts_say() {
        let mut relay = Relay::new(7, Rates { loss: 100, duplicate: 100, reorder: 100 });
        let out = run(&mut relay, 0..200);
        let counts = relay.counts();
        let missing = (0..200).filter(|number| !out.contains(number)).count() as u64;
        assert_eq!(missing, counts.lost);
        assert_eq!(out.len() as u64, counts.read - counts.lost + counts.duplicated);
        assert!(counts.lost > 0 && counts.duplicated > 0 && counts.reordered > 0, "{counts}");
        assert_ne!(out, {
            let mut sorted = out.clone();
            sorted.sort();
            sorted
        });
    }

    #[test]
    fn one_seed_makes_one_choice() {
        let rates = Rates { loss: 100, duplicate: 100, reorder: 100 };
        let outcome = |seed| run(&mut Relay::new(seed, rates), 0..200);
        assert_eq!(outcome(3), outcome(3));
        assert_ne!(outcome(3), outcome(4));
    }

    #[test]
    fn a_held_packet_waits_for_its_own_flow_and_not_for_long() {
        let mut relay = Relay::new(1, Rates { loss: 0, duplicate: 0, reorder: 1000 });
        let now = Instant::now();
        relay.take(&packet(1, 1), now, &mut |_| panic!("held packets stay"));
        assert_eq!(relay.next_release(), Some(now + LONGEST_HOLD));
        relay.rates.reorder = 0;
        let mut out = Vec::new();
        relay.take(&packet(2, 2), now, &mut |sent| out.push(sent[40]));
        relay.release(now, &mut |sent| out.push(sent[40]));
        assert_eq!(out, [2]);
        relay.release(now + LONGEST_HOLD, &mut |sent| out.push(sent[40]));
        assert_eq!(out, [2, 1]);
        assert_eq!(
            (relay.counts().reordered, relay.counts().delayed, relay.next_release()),
            (0, 1, None)
        );
    }

    #[test]
    fn a_held_packet_is_overtaken_by_one_to_three() {
        let mut places = [0; 5];
        for seed in 0..100 {
            let mut relay = Relay::new(seed, Rates { loss: 0, duplicate: 0, reorder: 1000 });
            relay.take(&packet(1, 0), Instant::now(), &mut |_| panic!("held packets stay"));
            relay.rates.reorder = 0;
            let out = run(&mut relay, 1..5);
            places[out.iter().position(|number| *number == 0).unwrap()] += 1;
            assert_eq!(relay.counts().reordered, 1);
        }
        assert!(
            places[0] == 0 && places[1..4].iter().all(|&times| times > 0) && places[4] == 0,
            "{places:?}"
        );
    }

    #[test]
    fn counts_are_read_back() {
        let counts = Counts { read: 9, lost: 1, duplicated: 2, reordered: 3, delayed: 4 };
        assert_eq!(Counts::parse(&format!("{counts}\n")), Some(counts));
        assert_eq!(Counts::parse("read 9, lost 1"), None);
    }
}
