//! A small service, its packets, and the ways to hand them in.

use agreement::call::{Call, Lending, Told};
use agreement::compare;
use agreement::many::call::{Burst, Form, Many, Packet, Serve};
use agreement::many::compare::step;
use agreement::many::ends::LONGEST;
use agreement::many::other_end::OtherEnd;
use agreement::many::wanted::Wanted;
use agreement::sides::Library;
use agreement::world::World;
use reference::packets::{self, End};
use reference::{Server, Service, PLACES};

pub const VIRTUAL: End = (0xC000_020A, 5432);

/// TCP, round-robin, two servers of weight 1, so many slots; at clock 0.
pub fn world(slots: usize) -> World {
    let (address, port) = VIRTUAL;
    let service = Service { address, port, protocol: 6, scheduler: 1, servers: 2 };
    let mut servers = Box::new([Server::default(); PLACES]);
    for number in 0..2 {
        let (address, port) = server(number);
        servers[number as usize] = Server { address, port, weight: 1, count: 0 };
    }
    let row = Lending::Fresh { words: slots * 5, filled: 9 };
    let call = Call::SetUp { service, servers, row };
    compare::step(&Library, &call, &World::new(), None).unwrap().world
}

pub fn server(number: u32) -> End {
    (0x0A01_0005 + number, 6432)
}

pub fn client(number: u32) -> End {
    (0x0A00_0001 + number, 40_000)
}

/// A client's packet.
pub fn from(number: u32, flags: u8) -> Vec<u8> {
    packets::tcp(client(number), VIRTUAL, flags).build()
}

/// A server's packet to a client.
pub fn back(from: u32, to: u32, flags: u8) -> Vec<u8> {
    packets::tcp(server(from), client(to), flags).build()
}

/// A burst of right lengths, with nothing past its packets.
pub const BURST: Form = Form::Burst(Burst { places: 0, bytes: 0, records: 0, words: 0 });

/// A serve that takes all there is.
pub const SERVE: Serve = Serve {
    buffer: LONGEST + 300 * 40,
    words: 5 * 300 + 5,
    most: u32::MAX,
    stop: 0,
    counted: 0,
    other_end: OtherEnd::Ending,
};

pub fn many(clock: u32, packets: Vec<Vec<u8>>, form: Form) -> Many {
    Many { clock, packets: packets.into_iter().map(Packet::new).collect(), form }
}

/// Makes it on the library, and compares all that it leaves with the reference's single calls.
pub fn make(world: &World, many: &Many) -> Wanted {
    step(&Library, many, world).unwrap_or_else(|complaint| panic!("{complaint}: {many:?}"))
}

/// The same packets as a burst and as a serve: the answers, as both give them, and the world after.
pub fn both(world: &World, clock: u32, packets: Vec<Vec<u8>>) -> (Vec<Told>, World) {
    let burst = make(world, &many(clock, packets.clone(), BURST));
    let serve = make(world, &many(clock, packets, Form::Serve(SERVE)));
    assert_eq!(burst.singly.world, serve.singly.world);
    assert_eq!(answers(&burst), answers(&serve));
    (answers(&burst), burst.singly.world)
}

pub fn answers(wanted: &Wanted) -> Vec<Told> {
    wanted.singly.steps.iter().map(|step| step.told).collect()
}

pub fn opened(number: u32) -> Told {
    Told { refusal: 0, number, change: 1 }
}

pub fn kept(number: u32) -> Told {
    Told { refusal: 0, number, change: 2 }
}

pub fn ended(number: u32) -> Told {
    Told { refusal: 0, number, change: 3 }
}

pub fn refused(refusal: u32) -> Told {
    Told { refusal, number: 0, change: 0 }
}
