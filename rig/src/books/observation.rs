//! Every look at the director's table is kept, so that in the end each count can be held against the packets.

use crate::books::looks::{now, Clock, Look, Watcher};
use crate::books::packets::{Moment, PacketBook};
use crate::books::replaced::Replaced;
use crate::books::Book;
use crate::lab::director::Director;
use crate::lab::replacement::Replacement;
use crate::lab::status::Status;
use crate::lab::{ensure, Failure, REPLICAS};
use crate::links::packet::Packet;
use crate::timeline::Timeline;
use std::sync::Arc;

/// The looks so far: the drill's own, and those that are taken beside it all the time.
pub struct Observation {
    looks: Vec<Look>,
    watcher: Option<Watcher>,
    clock_speed: u32,
    replaced: Vec<Replaced>,
    losses: Vec<Moment>,
}

impl Observation {
    /// Begins to look at a director whose clock runs so fast.
    pub fn begin(director: &Arc<Director>, clock_speed: u32) -> Observation {
        let watcher = Some(Watcher::start(director.clone()));
        let (looks, replaced, losses) = (Vec::new(), Vec::new(), Vec::new());
        Observation { looks, watcher, clock_speed, replaced, losses }
    }

    /// Lets a new process of the director follow the one that runs. What it says of that is held against the packets in the end.
    pub fn replace(&mut self, director: &Director, how: Replacement) -> Result<Replaced, Failure> {
        let replaced = Replaced::replace(director, how)?;
        self.replaced.push(replaced);
        Ok(replaced)
    }

    /// Kills the director's process, so that its table is lost, and starts another.
    pub fn lose_table(&mut self, director: &Director) -> Result<(), Failure> {
        let before = now();
        director.kill_and_start()?;
        self.losses.push(Moment { handed: before, written: now() });
        Ok(())
    }

    /// Holds every count that was ever read against the packets that the director was handed and wrote.
    pub fn hold_against(self, packets: &[Packet], timeline: &Timeline) -> Result<Verdict, Failure> {
        let looks = self.looks;
        let clock = Clock::that_fits(&looks, self.clock_speed)?;
        let book = PacketBook::read(packets, &clock, &self.losses)?;
        let exact = book.check(&looks, &clock)?;
        timeline.tell(format!(
            "{} counts were read, and each is what the packets say (for {exact} of them only one number is right)",
            looks.len() * REPLICAS
        ));
        self.replaced.iter().try_for_each(|replaced| replaced.check(&book, &clock))?;
        Ok(Verdict { book, clock, looks, replaced: self.replaced })
    }
}

impl Book for Observation {
    fn look(&mut self, director: &Director) -> Result<Status, Failure> {
        let look = Look::take(director)?;
        let status = look.status.clone();
        self.looks.push(look);
        Ok(status)
    }

    /// The packets tell it.
    fn opened(&mut self, _: usize, _: u16) {}

    /// The packets tell it.
    fn ended(&mut self, _: u16, _: u32, _: u32) {}

    /// The packets tell it.
    fn crowd_came(&mut self, _: Vec<usize>) {}

    /// The packets tell it.
    fn crowd_went(&mut self, _: u32) {}

    fn close(&mut self) -> Result<(), Failure> {
        let watched = self.watcher.take().map(Watcher::finish).transpose()?;
        self.looks.extend(watched.unwrap_or_default());
        self.looks.sort_by(|a, b| a.after.total_cmp(&b.after));
        Ok(())
    }
}

/// What is known in the end.
pub struct Verdict {
    /// What the packets say.
    pub book: PacketBook,
    /// The director's clock.
    pub clock: Clock,
    looks: Vec<Look>,
    replaced: Vec<Replaced>,
}

impl Verdict {
    /// Tells what was held against the packets where a process of the director followed another.
    pub fn tell_replaced(&self, timeline: &Timeline) -> Result<(), Failure> {
        let take_overs: Vec<&Replaced> =
            self.replaced.iter().filter(|replaced| replaced.how == Replacement::TakeOver).collect();
        let looks = self.looks.iter();
        let looks = looks.filter(|look| take_overs.iter().any(|one| one.was_seen_by(look))).count();
        let words = format!("{} of these counts were read during a take-over", looks * REPLICAS);
        ensure(looks > 0, format!("{words}: the run shows nothing"))?;
        timeline.tell(format!(
            "{words}, and no packet was lost at one; all {} new processes told as many connections as the packets do",
            self.replaced.len()
        ));
        Ok(())
    }

    /// Tells when the count of that server was first read as zero, and when the last packet had come that it waited for.
    pub fn tell_zero(&self, server: usize, timeline: &Timeline) -> Result<(), Failure> {
        let count = |look: &&Look| look.status.rows[server].connections;
        let mut looks = self.looks.iter().skip_while(|look| count(look) == 0);
        let zero = looks.find(|look| count(look) == 0);
        let zero = zero.ok_or(Failure(format!("replica {server} never read zero")))?;
        let last = match self.book.last_packet(server, zero.before, &self.clock) {
            Some((least, most)) if least == most => format!("last packet at clock {least}"),
            Some((least, most)) => format!("last packet at clock {least} to {most}"),
            None => "no packet to wait for".into(),
        };
        timeline.tell(format!(
            "replica {server}: {last}, first read as zero at clock {} (ended by RST: {}); no connection was ever moved",
            zero.status.clock,
            self.book.resets(server)
        ));
        Ok(())
    }
}
