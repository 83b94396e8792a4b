//! Packets that are handed to a director together.

use crate::passed::packet_verdict;
use crate::raw::{Record, PLACE};
use crate::{Passed, Refusal};
use std::io;

/// Packets for a [`Director::burst`](crate::Director::burst), each in a place of its own.
///
/// It is made once and filled again and again: the burst takes all packets out.
///
/// ```
/// # use nidhaaguf::{Director, Protocol, Scheduler, Settings};
/// use nidhaaguf::Burst;
/// use std::os::unix::net::UnixDatagram;
///
/// # let settings = Settings::new("192.0.2.10:5432".parse()?, Protocol::Tcp, Scheduler::RoundRobin)
/// #     .server("10.1.0.5:6432".parse()?, 1);
/// # let mut director = Director::set_up(&settings, 16)?;
/// let (socket, other_end) = UnixDatagram::pair()?;
/// socket.set_nonblocking(true)?;
/// # let syn = [
/// #     0x45, 0, 0, 0x28, 0, 0, 0x40, 0, 0x40, 0x06, 0x6E, 0xC5, 10, 0, 0, 1, 192, 0, 2, 10,
/// #     0x9C, 0x40, 0x15, 0x38, 0, 0, 0, 0, 0, 0, 0, 0, 0x50, 0x02, 0, 0, 0x32, 0x5F, 0, 0,
/// # ];
/// other_end.send(&syn)?;
/// other_end.send(b"no packet at all")?;
///
/// let mut burst = Burst::new(64);
/// // until all places are taken or nothing is left to read
/// while let Some(Ok(_)) = burst.read(|place| socket.recv(place)) {}
/// assert_eq!(burst.len(), 2);
///
/// for (packet, answer) in director.burst(&mut burst, 1)?.packets() {
///     match answer {
///         Ok(_) => drop(socket.send(packet)?),
///         Err(refusal) => println!("dropped: {refusal}"),
///     }
/// }
/// assert!(burst.is_empty());
/// # let mut sent = [0; 2_048];
/// # assert_eq!(other_end.recv(&mut sent)?, 40);
/// # assert_eq!(sent[16..20], [10, 1, 0, 5]);
/// # Ok::<(), Box<dyn std::error::Error>>(())
/// ```
#[derive(Clone, Debug)]
pub struct Burst {
    places: Vec<u8>,
    records: Vec<Record>,
    /// How many places are taken.
    taken: usize,
}

impl Burst {
    /// The longest packet that a place takes, in bytes.
    pub const LONGEST: usize = PLACE;

    /// Room for so many packets.
    pub fn new(places: usize) -> Burst {
        let (bytes, records) = (vec![0; places * PLACE], vec![Record::default(); places]);
        Burst { places: bytes, records, taken: 0 }
    }

    /// Lets `read` write a packet into the next place and tell its length; an error takes no place. None where all
    /// places are taken: `read` isn't called then.
    pub fn read<E>(
        &mut self,
        read: impl FnOnce(&mut [u8]) -> Result<usize, E>,
    ) -> Option<Result<usize, E>> {
        let record = self.records.get_mut(self.taken)?;
        let first = self.taken * PLACE;
        Some(read(&mut self.places[first..first + PLACE]).inspect(|&length| {
            // past a place's length the library takes the whole place
            record.length = u32::try_from(length).unwrap_or(u32::MAX);
            self.taken += 1;
        }))
    }

    /// Adds a copy of a packet. An error where all places are taken, or the packet is longer than one.
    pub fn push(&mut self, packet: &[u8]) -> io::Result<()> {
        let copied = self.read(|place| match place.get_mut(..packet.len()) {
            Some(part) => {
                part.copy_from_slice(packet);
                Ok(packet.len())
            }
            None => Err(io::Error::other("the packet is longer than a burst's place")),
        });
        let full = || Err(io::Error::other("all places of the burst are taken"));
        copied.unwrap_or_else(full).map(|_| ())
    }

    /// How many packets there are.
    pub fn len(&self) -> usize {
        self.taken
    }

    pub fn is_empty(&self) -> bool {
        self.taken == 0
    }

    /// Drops the packets.
    pub fn clear(&mut self) {
        self.taken = 0;
    }

    /// What the library is lent: the places and records that are taken.
    pub(crate) fn taken(&mut self) -> (&mut [u8], &mut [Record]) {
        (&mut self.places[..self.taken * PLACE], &mut self.records[..self.taken])
    }

    /// The answered packets, which are taken out.
    pub(crate) fn answered(&mut self, removed: u32) -> Answered<'_> {
        let records = &self.records[..std::mem::take(&mut self.taken)];
        Answered { removed, places: &self.places, records }
    }
}

/// What became of a burst's packets.
#[derive(Clone, Copy, Debug)]
pub struct Answered<'a> {
    /// How many idle connections were removed before the first packet.
    pub removed: u32,
    places: &'a [u8],
    records: &'a [Record],
}

impl<'a> Answered<'a> {
    /// The packets in their order, each with its answer: accepted, it is rewritten and to be sent on; refused, it is as it
    /// was.
    pub fn packets(&self) -> impl ExactSizeIterator<Item = (&'a [u8], Result<Passed, Refusal>)> {
        self.places.chunks_exact(PLACE).zip(self.records).map(|(place, record)| {
            let length = (record.length as usize).min(PLACE);
            (&place[..length], record.answer())
        })
    }
}

impl Record {
    /// A record for a packet of so many bytes.
    pub fn of_length(length: u32) -> Record {
        Record { length, ..Record::default() }
    }

    /// The packet's answer, once a burst has written it.
    pub fn answer(&self) -> Result<Passed, Refusal> {
        packet_verdict(self.refusal, self.server, self.change)
    }
}
