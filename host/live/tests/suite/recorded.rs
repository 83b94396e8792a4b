//! State files that earlier programs have saved: all goes on in this one.

use crate::layouts::{layout_1_of, layout_2_of};
use crate::support::*;
use live::config::Config;
use live::control::metrics;
use live::handover::layout::read;
use live::handover::snapshot::{this_boot, Resumed, Snapshot};
use live::instance::Instance;
use std::collections::BTreeMap;
use std::time::Duration;

/// What a program has left.
pub struct Recorded {
    /// Its state file, as `xxd -p` prints it.
    file: &'static str,
    /// The metrics that it told last.
    metrics: &'static str,
    /// Its configuration.
    config: fn() -> Config,
    /// What it writes of a director.
    bytes_of: fn(&Snapshot) -> Vec<u8>,
    /// The largest weight and the divisor of its servers, which it had no numbers for.
    numbers: (u16, u16),
}

/// Least-connection over the weights 1, 0 and 20, of which the 0 was set.
pub const LAYOUT_1: Recorded = Recorded {
    file: include_str!("layout_1.hex"),
    metrics: include_str!("layout_1.metrics"),
    config: small_config,
    bytes_of: layout_1_of,
    numbers: (20, 1),
};

/// Weighted round-robin over the weights 6, 9 and 0, of which the 9 was set; the walk is in its second round.
pub const LAYOUT_2: Recorded = Recorded {
    file: include_str!("layout_2.hex"),
    metrics: include_str!("layout_2.metrics"),
    config: weighted_config,
    bytes_of: layout_2_of,
    numbers: (9, 3),
};

fn weighted_config() -> Config {
    config(
        "service 192.0.2.10:5432 tcp
         scheduler weighted-round-robin
         slots 6
         server 10.1.0.5:6432 weight 6
         server 10.2.0.5:6432 weight 4
         server 10.30.0.5:6432 weight 0",
    )
}

impl Recorded {
    pub fn bytes(&self) -> Vec<u8> {
        let byte = |digits: &[u8]| u8::from_str_radix(str::from_utf8(digits).unwrap(), 16).unwrap();
        self.file.lines().flat_map(|line| line.as_bytes().chunks(2).map(byte)).collect()
    }

    /// The director that goes on, in the second in which it was saved, as if on the machine of then.
    fn resumed(&self) -> Instance {
        let mut snapshot = read(&self.bytes()).unwrap();
        assert_eq!((self.bytes_of)(&snapshot), self.bytes());
        snapshot.boot = this_boot();
        let now = Duration::from_secs(snapshot.state.clock.into());
        let resumed = snapshot.resume(&(self.config)(), 1, now).unwrap();
        let Resumed { instance, forgotten: None, .. } = resumed else { panic!("{resumed:?}") };
        instance
    }
}

/// What metrics tell, without the words of the reasons.
fn samples(text: &str) -> Vec<(&str, &str)> {
    let samples = text.lines().filter(|line| !line.starts_with('#'));
    let parts = samples.map(|line| line.rsplit_once(' ').unwrap());
    parts.map(|(name, value)| (name.split(",reason=").next().unwrap(), value)).collect()
}

/// All that was told is told on, a server's connections under another name; what is new begins at 0, or follows from the rest.
#[test]
fn a_recorded_director_goes_on() {
    for recorded in [LAYOUT_1, LAYOUT_2] {
        let mut instance = recorded.resumed();
        let text = metrics::text(&instance);
        let renamed = recorded.metrics.replace("_connections{", "_server_connections{");
        let known: BTreeMap<_, _> = samples(&renamed).into_iter().collect();
        let (found, new): (Vec<_>, Vec<_>) =
            samples(&text).into_iter().partition(|(name, _)| known.contains_key(name));
        assert_eq!(found.into_iter().collect::<BTreeMap<_, _>>(), known);
        let by_state = |name: &str| name.starts_with("nidhaaguf_connections{");
        assert!(new.iter().all(|(name, value)| *value == "0" || by_state(name)), "{new:?}");
        assert!(instance.connections().iter().all(|seen| seen.opened.is_none()));
        assert_eq!(instance.book().opening(), 0);
        let state = instance.director().parts().0;
        assert_eq!((state.largest_weight, state.weight_divisor), recorded.numbers);
        // a connection of before is kept
        let used = instance.director().used();
        pass(&mut instance, &syn(1)).unwrap();
        assert_eq!(instance.director().used(), used);
    }
}

/// By the weights 6, 9 and 0 a round is 1 0 1 0 1; the program of before has picked one round and the first of the next.
#[test]
fn the_walk_goes_on_where_it_was() {
    let mut instance = LAYOUT_2.resumed();
    let picked = (101..=109).map(|port| {
        let packet = pass(&mut instance, &syn(port)).unwrap();
        pass(&mut instance, &reset(port)).unwrap();
        // its destination is 10.1.0.5 for server 0, 10.2.0.5 for server 1
        packet[17] - 1
    });
    assert!(picked.eq([0, 1, 0, 1, 1, 0, 1, 0, 1]));
}
