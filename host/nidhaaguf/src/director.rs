//! A director that owns its state and its connection table.

use crate::connections::{connections, Connection};
use crate::ffi::clear_errno;
use crate::passed::{packet_verdict, verdict};
use crate::raw::{self, Answer, LentToServe, Record, State};
use crate::{Answered, Burst, Counters, End, Served, Trace};
use crate::{Passed, Refusal, Settings};
use std::io;
use std::os::fd::AsFd;

/// The most slots that a table may have.
const MOST_SLOTS: usize = 4_096;

/// A director: one virtual address and port over its servers.
///
/// Every call but `count` may change it, also some refused ones: see [`Refusal`].
#[derive(Clone, Debug, PartialEq, Eq)]
pub struct Director {
    state: State,
    row: Vec<u32>,
}

impl Director {
    /// A director with room for `slots` connections, 1 to 4,096. Its clock is 0.
    ///
    /// ```
    /// use nidhaaguf::{Director, Protocol, Refusal, Scheduler, Settings};
    ///
    /// let settings = Settings::new("192.0.2.10:5432".parse()?, Protocol::Tcp, Scheduler::RoundRobin);
    /// assert_eq!(Director::set_up(&settings, 1_000), Err(Refusal::Sizes)); // no server
    ///
    /// let settings = settings.server("10.1.0.5:6432".parse()?, 1);
    /// let director = Director::set_up(&settings, 1_000)?;
    /// assert_eq!(director.clock(), 0);
    /// # Ok::<(), Box<dyn std::error::Error>>(())
    /// ```
    pub fn set_up(settings: &Settings, slots: usize) -> Result<Director, Refusal> {
        // one slot too many is refused as well as a million: no need to ask for the memory
        let words = slots.min(MOST_SLOTS + 1) * raw::WORDS_PER_SLOT;
        let mut director = Director { state: State::default(), row: vec![0; words] };
        let (service, servers) = (settings.raw_service(), settings.raw_servers());
        let answer = raw::set_up(director.state, service, servers, &mut director.row);
        director.accept(answer)?;
        Ok(director)
    }

    /// What passes from call to call: the state, and the words of the connection table. Handed to
    /// [`resume`](Director::resume), by this process or the next, they are the same director again.
    pub fn parts(&self) -> (&State, &[u32]) {
        (&self.state, &self.row)
    }

    /// The director that has such parts.
    ///
    /// Refused: [`Unsound`](Refusal::Unsound), if no director can have them: its counts wouldn't be those of its table.
    ///
    /// ```
    /// use nidhaaguf::{Director, Protocol, Refusal, Scheduler, Settings};
    ///
    /// let settings = Settings::new("192.0.2.10:53".parse()?, Protocol::Udp, Scheduler::RoundRobin)
    ///     .server("10.1.0.5:53".parse()?, 1);
    /// let director = Director::set_up(&settings, 16)?;
    /// let (mut state, row) = (*director.parts().0, director.parts().1.to_vec());
    /// assert_eq!(Director::resume(state, row.clone()), Ok(director));
    /// state.servers[0].count = 1; // of an empty table
    /// assert_eq!(Director::resume(state, row), Err(Refusal::Unsound));
    /// # Ok::<(), Box<dyn std::error::Error>>(())
    /// ```
    pub fn resume(state: State, row: Vec<u32>) -> Result<Director, Refusal> {
        let director = Director { state, row };
        // every call judges the parts first, and this one changes nothing
        director.count(0).map(|_| director)
    }

    /// What it was set up with, and the weights that the servers have now.
    pub fn settings(&self) -> Settings {
        Settings::of_state(&self.state)
    }

    /// Sets a server's weight. Its connections stay with it, also at weight 0.
    ///
    /// Refused: [`NoServer`](Refusal::NoServer).
    pub fn set_weight(&mut self, server: usize, weight: u16) -> Result<(), Refusal> {
        let answer = raw::set_weight(self.state, &self.row, number_of(server), weight);
        self.accept(answer).map(|_| ())
    }

    /// How many connections a server has, as of the latest accepted clock: [`tick`](Director::tick) first to leave
    /// the idle ones out.
    ///
    /// Refused: [`NoServer`](Refusal::NoServer).
    pub fn count(&self, server: usize) -> Result<u32, Refusal> {
        let answer = raw::count(self.state, &self.row, number_of(server));
        verdict(answer.refusal).map(|()| answer.number)
    }

    /// Moves the clock, in seconds, and removes the connections that are idle then: UDP after 300 s, TCP after 900 s,
    /// or after 120 s once both sides have sent FIN. Tells how many it removed.
    ///
    /// Refused: [`EarlierClock`](Refusal::EarlierClock).
    ///
    /// ```
    /// use nidhaaguf::{Director, Protocol, Refusal, Scheduler, Settings};
    ///
    /// let settings = Settings::new("192.0.2.10:53".parse()?, Protocol::Udp, Scheduler::RoundRobin)
    ///     .server("10.1.0.5:53".parse()?, 1);
    /// let mut director = Director::set_up(&settings, 16)?;
    /// assert_eq!(director.tick(51), Ok(0));
    /// assert_eq!(director.tick(50), Err(Refusal::EarlierClock));
    /// assert_eq!(director.clock(), 51);
    /// # Ok::<(), Box<dyn std::error::Error>>(())
    /// ```
    pub fn tick(&mut self, clock: u32) -> Result<u32, Refusal> {
        let answer = raw::tick(self.state, &mut self.row, clock);
        self.accept(answer).map(|answer| answer.number)
    }

    /// Takes a packet from a client, from the first byte of its IPv4 header on. Accepted, it is rewritten in place for
    /// the server told, checksums included; refused, it is as it was.
    pub fn inbound(&mut self, packet: &mut [u8], clock: u32) -> Result<Passed, Refusal> {
        let answer = raw::inbound(self.state, &mut self.row, packet, clock);
        self.accept_packet(answer)
    }

    /// Takes a packet from a server. Accepted, it is rewritten in place to come from the virtual address and port;
    /// refused, it is as it was. It opens no connection.
    pub fn outbound(&mut self, packet: &mut [u8], clock: u32) -> Result<Passed, Refusal> {
        let answer = raw::outbound(self.state, &mut self.row, packet, clock);
        self.accept_packet(answer)
    }

    /// A [`tick`](Director::tick), then the packets one after another at its clock, each as
    /// [`inbound`](Director::inbound) or [`outbound`](Director::outbound) takes it, by its destination: inbound, if that
    /// is the virtual address. The packets are taken out of the burst and told with their answers. It costs far less than
    /// as many single calls, since the state is judged once.
    ///
    /// Refused: [`EarlierClock`](Refusal::EarlierClock); the packets then stay in the burst.
    ///
    /// ```
    /// use nidhaaguf::{Burst, Change, Director, Passed, Protocol, Refusal, Scheduler, Settings};
    ///
    /// let settings = Settings::new("192.0.2.10:5432".parse()?, Protocol::Tcp, Scheduler::RoundRobin)
    ///     .server("10.1.0.5:6432".parse()?, 1);
    /// let mut director = Director::set_up(&settings, 16)?;
    /// # let syn = [
    /// #     0x45, 0, 0, 0x28, 0, 0, 0x40, 0, 0x40, 0x06, 0x6E, 0xC5, 10, 0, 0, 1, 192, 0, 2, 10,
    /// #     0x9C, 0x40, 0x15, 0x38, 0, 0, 0, 0, 0, 0, 0, 0, 0x50, 0x02, 0, 0, 0x32, 0x5F, 0, 0,
    /// # ];
    ///
    /// let mut burst = Burst::new(64);
    /// burst.push(&syn)?;
    /// burst.push(&syn)?;
    /// burst.push(&syn[..19])?;
    /// let answers: Vec<_> = director.burst(&mut burst, 1)?.packets().map(|(_, answer)| answer).collect();
    /// assert_eq!(answers[0], Ok(Passed { server: 0, change: Change::Opened }));
    /// assert_eq!(answers[1], Ok(Passed { server: 0, change: Change::Kept }));
    /// assert_eq!(answers[2], Err(Refusal::MalformedHeader));
    /// # Ok::<(), Box<dyn std::error::Error>>(())
    /// ```
    pub fn burst<'a>(&mut self, burst: &'a mut Burst, clock: u32) -> Result<Answered<'a>, Refusal> {
        let (places, records) = burst.taken();
        let removed = self.burst_in_place(places, records, clock)?;
        Ok(burst.answered(removed))
    }

    /// The same for packets in a ring of the program's own: packet k begins at byte [`PLACE`](raw::PLACE) * k, and
    /// `records[k]` tells its length and gets its answer. There are as many packets as both whole places and records.
    /// Tells how many connections the tick removed.
    pub fn burst_in_place(
        &mut self,
        packets: &mut [u8],
        records: &mut [Record],
        clock: u32,
    ) -> Result<u32, Refusal> {
        let words = raw::words(records);
        let answer = raw::burst(self.state, &mut self.row, packets, words, clock);
        self.accept(answer).map(|answer| answer.number)
    }

    /// A [`tick`](Director::tick), then packets as they come: each is read from `descriptor`, taken as in a
    /// [`burst`](Director::burst) and, accepted, written back; until a read gives nothing, `most` packets are taken, the trace
    /// has no room for another, or one is refused with `stop`. The descriptor gives one packet a read, such as a TUN device or
    /// a datagram socket. The call waits where its reads do, and its clock stands still meanwhile; a signal ends it, unless it
    /// comes just before the read. The trace then has the packets with their answers.
    ///
    /// Refused: [`EarlierClock`](Refusal::EarlierClock), and nothing is read.
    ///
    /// ```
    /// use nidhaaguf::{Change, Counters, Director, End, Protocol, Refusal, Scheduler, Settings, Trace, Way};
    /// use std::os::unix::net::UnixDatagram;
    ///
    /// let settings = Settings::new("192.0.2.10:5432".parse()?, Protocol::Tcp, Scheduler::RoundRobin)
    ///     .server("10.1.0.5:6432".parse()?, 1);
    /// let mut director = Director::set_up(&settings, 16)?;
    /// # let syn = [
    /// #     0x45, 0, 0, 0x28, 0, 0, 0x40, 0, 0x40, 0x06, 0x6E, 0xC5, 10, 0, 0, 1, 192, 0, 2, 10,
    /// #     0x9C, 0x40, 0x15, 0x38, 0, 0, 0, 0, 0, 0, 0, 0, 0x50, 0x02, 0, 0, 0x32, 0x5F, 0, 0,
    /// # ];
    /// let (device, other_end) = UnixDatagram::pair()?;
    /// other_end.send(&syn)?;
    /// other_end.send(&syn[..19])?;
    ///
    /// let (mut trace, mut counters) = (Trace::new(64), Counters::new());
    /// let served = director.serve(&device, &mut trace, &mut counters, 1, 2, None)?;
    /// assert!(matches!(served.end, End::Most));
    /// assert_eq!((served.taken, served.unsent), (2, 0));
    /// assert_eq!(counters.accepted(Way::Inbound, Change::Opened), 1);
    /// assert_eq!(counters.refused(Way::Inbound, Refusal::MalformedHeader), 1);
    /// let answers: Vec<_> = trace.packets().map(|packet| packet.answer.map(|passed| passed.change)).collect();
    /// assert_eq!(answers, [Ok(Change::Opened), Err(Refusal::MalformedHeader)]);
    /// # let mut sent = [0; 2_048];
    /// # assert_eq!(other_end.recv(&mut sent)?, 40);
    /// # assert_eq!(sent[16..20], [10, 1, 0, 5]);
    /// # Ok::<(), Box<dyn std::error::Error>>(())
    /// ```
    pub fn serve(
        &mut self,
        descriptor: impl AsFd,
        trace: &mut Trace,
        counters: &mut Counters,
        clock: u32,
        most: u32,
        stop: Option<Refusal>,
    ) -> Result<Served, Refusal> {
        let (buffer, records) = trace.lent();
        let lent = LentToServe { row: &mut self.row, buffer, records, counters: &mut counters.0 };
        let number = stop.map_or(0, Refusal::number);
        clear_errno();
        let served = raw::serve(descriptor.as_fd(), self.state, lent, clock, most, number);
        let error = io::Error::last_os_error();
        self.state = served.state;
        trace.set_taken(served.taken as usize);
        verdict(served.refusal)?;
        let raw::Served { removed, taken, unsent, .. } = served;
        let end = End::of(taken == most || trace.has_ended(stop), error);
        Ok(Served { removed, taken, unsent, end })
    }

    /// The connections, in the order of the table.
    ///
    /// ```
    /// # use nidhaaguf::{Director, Phase, Protocol, Scheduler, Settings};
    /// # let settings = Settings::new("192.0.2.10:5432".parse()?, Protocol::Tcp, Scheduler::RoundRobin)
    /// #     .server("10.1.0.5:6432".parse()?, 1);
    /// let mut director = Director::set_up(&settings, 16)?;
    /// # let mut syn = [
    /// #     0x45, 0, 0, 0x28, 0, 0, 0x40, 0, 0x40, 0x06, 0x6E, 0xC5, 10, 0, 0, 1, 192, 0, 2, 10,
    /// #     0x9C, 0x40, 0x15, 0x38, 0, 0, 0, 0, 0, 0, 0, 0, 0x50, 0x02, 0, 0, 0x32, 0x5F, 0, 0,
    /// # ];
    /// director.inbound(&mut syn, 7)?;
    /// let connection = director.connections().next().unwrap();
    /// assert_eq!(connection.client, "10.0.0.1:40000".parse()?);
    /// assert_eq!((connection.server, connection.phase, connection.seen), (0, Phase::Open, 7));
    /// # Ok::<(), Box<dyn std::error::Error>>(())
    /// ```
    pub fn connections(&self) -> impl Iterator<Item = Connection> + '_ {
        connections(&self.row)
    }

    /// The latest accepted clock.
    pub fn clock(&self) -> u32 {
        self.state.clock
    }

    /// How many connections there is room for.
    pub fn slots(&self) -> usize {
        self.row.len() / raw::WORDS_PER_SLOT
    }

    /// How many connections there are, as of the latest accepted clock: the sum of all counts.
    pub fn used(&self) -> u32 {
        self.state.servers.iter().map(|server| server.count).sum()
    }

    /// A server's weight; None where no server has that number.
    pub fn weight(&self, server: usize) -> Option<u16> {
        let servers = self.state.servers.iter().take(self.state.service.servers as usize);
        servers.map(|server| server.weight).nth(server)
    }

    /// The state comes back from every call, refused ones too.
    fn accept(&mut self, answer: Answer) -> Result<Answer, Refusal> {
        self.state = answer.state;
        verdict(answer.refusal).map(|()| answer)
    }

    fn accept_packet(&mut self, answer: Answer) -> Result<Passed, Refusal> {
        self.state = answer.state;
        packet_verdict(answer.refusal, answer.number, answer.change)
    }
}

/// A number past 32 bits is no server's either.
fn number_of(server: usize) -> u32 {
    u32::try_from(server).unwrap_or(u32::MAX)
}
