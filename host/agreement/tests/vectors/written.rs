//! A director of the second implementation whose answers are written down, a line for each.

use reference::packets::{self, End};
use reference::table::{self, Slot, SlotNumber};
use reference::{Answer, Change, Server, Service, State};
use std::fmt::Write;

const VIRTUAL: End = (0xC000020A, 5432);

fn server(number: u32) -> End {
    (0x0A010005 + number, 6432)
}

fn client(port: u16) -> End {
    (0x0A000001, port)
}

pub struct Written<'a> {
    text: &'a mut String,
    state: State,
    row: Vec<u32>,
}

impl Written<'_> {
    /// Setup of some servers of weight 1 over a row of some words.
    pub fn set_up(text: &mut String, scheduler: u8, servers: usize, words: usize) -> Written<'_> {
        Written::set_up_weights(text, scheduler, &vec![1; servers], words)
    }

    /// Setup of a server for each of these weights.
    pub fn set_up_weights<'a>(
        text: &'a mut String,
        scheduler: u8,
        weights: &[u16],
        words: usize,
    ) -> Written<'a> {
        let mut all = [Server::default(); reference::PLACES];
        for (number, (place, &weight)) in all.iter_mut().zip(weights).enumerate() {
            let (address, port) = server(number as u32);
            *place = Server { address, port, weight, count: 0 };
        }
        let (address, port) = VIRTUAL;
        let servers = weights.len() as u32;
        let service = Service { address, port, protocol: 6, scheduler, servers };
        let mut written = Written { text, state: State::new(), row: vec![0; words] };
        let answer = reference::set_up(&mut written.state, service, all, &mut written.row);
        written.line(answer);
        written
    }

    /// One server, round-robin.
    pub fn one_server(text: &mut String, words: usize) -> Written<'_> {
        Written::set_up(text, 1, 1, words)
    }

    fn line(&mut self, answer: Answer) {
        let told = match answer {
            Answer::Done => "done".to_string(),
            Answer::Number(number) => format!("number {number}"),
            Answer::Passed(server, Change::Opened) => format!("opened, server {server}"),
            Answer::Passed(server, Change::Kept) => format!("kept, server {server}"),
            Answer::Passed(server, Change::Ended) => format!("ended, server {server}"),
            Answer::Refused(number) => format!("refused, number {number}"),
        };
        writeln!(self.text, "  {told}").unwrap();
    }

    /// The five words of a slot, the address as hex digits.
    pub fn slot(&mut self, number: usize) {
        let Slot { phase, address, port, server, last_seen } =
            table::read(&self.row, SlotNumber(number));
        let client = format!("{address:08x} {port}");
        let told =
            format!("phase {phase}, client {client}, server {server}, last seen {last_seen}");
        writeln!(self.text, "  {told}").unwrap();
    }

    /// The two that the state holds of the weights.
    pub fn largest_and_divisor(&mut self) {
        let State { largest_weight, weight_divisor, .. } = self.state;
        writeln!(self.text, "  largest weight {largest_weight}, divisor {weight_divisor}").unwrap();
    }

    pub fn inbound(&mut self, mut packet: Vec<u8>, clock: u32) {
        let answer = reference::inbound(&mut self.state, &mut self.row, &mut packet, clock);
        self.line(answer);
    }

    /// A packet of a client's port with these flags.
    pub fn client_sends(&mut self, port: u16, flags: u8, clock: u32) {
        self.inbound(packets::tcp(client(port), VIRTUAL, flags).build(), clock);
    }

    /// A SYN with a data offset of some words and 20 bytes of payload.
    pub fn syn_with_offset(&mut self, port: u16, words: u8, clock: u32) {
        let mut plan = packets::tcp(client(port), VIRTUAL, packets::SYN);
        plan.data_offset = Some(words);
        self.inbound(plan.build(), clock);
    }

    /// A packet of a server for a client's port.
    pub fn server_sends(&mut self, number: u32, port: u16, flags: u8, clock: u32) {
        let mut packet = packets::tcp(server(number), client(port), flags).build();
        let answer = reference::outbound(&mut self.state, &mut self.row, &mut packet, clock);
        self.line(answer);
    }

    pub fn set_weight(&mut self, number: u32, weight: u16) {
        let answer = reference::set_weight(&mut self.state, &self.row, number, weight);
        self.line(answer);
    }

    pub fn tick(&mut self, clock: u32) {
        let answer = reference::tick(&mut self.state, &mut self.row, clock);
        self.line(answer);
    }
}
