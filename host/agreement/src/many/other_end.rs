//! A descriptor to serve, and its other end: it sends the packets and sees what is written.

use std::io::ErrorKind;
use std::net::Shutdown;
use std::os::unix::net::UnixDatagram;
use std::thread;

/// What the other end does once it has sent the packets.
#[derive(Clone, Copy, Debug, PartialEq, Eq)]
pub enum OtherEnd {
    /// It sends an empty datagram: the read that gives nothing. Reads and writes wait.
    Ending,
    /// It sends nothing more, and reads don't wait. Of few packets only: all are sent before the first is read.
    Silent,
    /// Likewise, and it receives nothing: every write fails. (Were it closed, the first failed write would clear the queue.)
    Unreceiving,
}

/// How many packets a socket holds that nobody reads (net.unix.max_dgram_qlen is 10 or more).
pub const FEW: usize = 10;

/// What has come and gone by the descriptor.
#[derive(Debug, Default, PartialEq, Eq)]
pub struct Seen {
    pub written: Vec<Vec<u8>>,
    /// What was sent, and not read.
    pub unread: Vec<Vec<u8>>,
}

impl OtherEnd {
    /// What it sends.
    pub fn sent(self, mut packets: Vec<Vec<u8>>) -> Vec<Vec<u8>> {
        if self == OtherEnd::Ending {
            packets.push(Vec::new());
        }
        packets
    }

    /// Calls `serve` with a descriptor by which these packets come.
    pub fn serve<T>(
        self,
        packets: Vec<Vec<u8>>,
        serve: impl FnOnce(&UnixDatagram) -> T,
    ) -> (T, Seen) {
        let (descriptor, other_end) = UnixDatagram::pair().expect("a socket pair");
        let sent = self.sent(packets);
        match self {
            OtherEnd::Ending => waiting(&descriptor, &other_end, &sent, serve),
            OtherEnd::Silent | OtherEnd::Unreceiving => {
                send(&other_end, &sent);
                if self == OtherEnd::Unreceiving {
                    other_end.shutdown(Shutdown::Read).expect("an end that receives nothing");
                }
                unwaiting(&descriptor, &other_end, serve)
            }
        }
    }
}

fn send(socket: &UnixDatagram, packets: &[Vec<u8>]) {
    for packet in packets {
        socket.send(packet).expect("a packet sent");
    }
}

/// The other end sends and receives meanwhile, so that no full queue stops the serve.
fn waiting<T>(
    descriptor: &UnixDatagram,
    other_end: &UnixDatagram,
    packets: &[Vec<u8>],
    serve: impl FnOnce(&UnixDatagram) -> T,
) -> (T, Seen) {
    thread::scope(|scope| {
        let sender = scope.spawn(|| send(other_end, packets));
        let receiver = scope.spawn(|| received_until(other_end, |packet| packet.is_empty()));
        let result = serve(descriptor);
        descriptor.set_nonblocking(true).expect("a descriptor that doesn't wait");
        let mut unread = Vec::new();
        while !sender.is_finished() {
            unread.extend(received_until(descriptor, |_| false));
            thread::yield_now();
        }
        unread.extend(received_until(descriptor, |_| false));
        descriptor.set_nonblocking(false).expect("a descriptor that waits");
        descriptor.send(&[]).expect("the receiver's end");
        (result, Seen { written: receiver.join().expect("all that was written"), unread })
    })
}

/// All packets have been sent.
fn unwaiting<T>(
    descriptor: &UnixDatagram,
    other_end: &UnixDatagram,
    serve: impl FnOnce(&UnixDatagram) -> T,
) -> (T, Seen) {
    descriptor.set_nonblocking(true).expect("a descriptor that doesn't wait");
    other_end.set_nonblocking(true).expect("an end that doesn't wait");
    let result = serve(descriptor);
    let unread = received_until(descriptor, |_| false);
    // one that receives nothing is told of an end: an empty datagram
    let written = received_until(other_end, |packet| packet.is_empty());
    (result, Seen { written, unread })
}

/// What is received, up to a last one or until nothing is left.
fn received_until(socket: &UnixDatagram, is_last: fn(&[u8]) -> bool) -> Vec<Vec<u8>> {
    let mut buffer = vec![0; 1 << 17];
    let packets = std::iter::from_fn(|| match socket.recv(&mut buffer) {
        Ok(length) => Some(buffer[..length].to_vec()),
        Err(error) if error.kind() == ErrorKind::WouldBlock => None,
        Err(error) => panic!("the other end: {error}"),
    });
    packets.take_while(|packet| !is_last(packet)).collect()
}
