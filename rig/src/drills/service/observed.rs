//! The service under observation: all counts are held against the packets in the end.

use super::Service;
use crate::books::observation::{Observation, Verdict};
use crate::lab::director::Options;
use crate::lab::{Failure, Lab};
use crate::timeline::Timeline;

impl<'a> Service<'a, Observation> {
    /// Starts all, with a director that is set up so.
    pub fn observe(
        lab: &'a Lab,
        timeline: &'a Timeline,
        options: &Options,
    ) -> Result<Service<'a, Observation>, Failure> {
        Service::start(lab, timeline, options, |director| {
            Observation::begin(director, options.clock_speed)
        })
    }

    /// Ends all. Every checksum that left must be right, and every count that was ever read what the packets say; at least so
    /// many packets must have left.
    pub fn judge(self, least: usize) -> Result<Verdict, Failure> {
        let timeline = self.timeline;
        let (observation, captured) = self.finish(least)?;
        observation.hold_against(&captured.device, timeline)
    }
}
