//! A SYN of a client whose connection both have finished.

use crate::written::Written;
use reference::packets::{ACK, FIN, RST, SYN};

fn finish(director: &mut Written, server: u32, port: u16, clock: u32) {
    director.client_sends(port, FIN, clock);
    director.server_sends(server, port, FIN, clock);
}

/// A table of one slot whose connection both have finished.
fn one_finished(text: &mut String) -> Written<'_> {
    let mut director = Written::one_server(text, 5);
    director.client_sends(40001, SYN, 1);
    finish(&mut director, 0, 40001, 2);
    director
}

fn lowered_count(text: &mut String) {
    text.push_str(
        "least-connection, counts 1 and 1: FIN both ways of server 1's client, its SYN\n",
    );
    let mut director = Written::set_up(text, 3, 2, 10);
    director.client_sends(40001, SYN, 1);
    director.client_sends(40002, SYN, 2);
    finish(&mut director, 1, 40002, 3);
    director.client_sends(40002, SYN, 4);
}

fn lower_slot(text: &mut String) {
    text.push_str(
        "three clients, FIN both ways of the third, RST of the first; SYN of the third: slots 0 and 2\n",
    );
    let mut director = Written::one_server(text, 15);
    for (port, clock) in [(40001, 1), (40002, 2), (40003, 3)] {
        director.client_sends(port, SYN, clock);
    }
    finish(&mut director, 0, 40003, 4);
    director.client_sends(40001, RST, 5);
    director.client_sends(40003, SYN, 6);
    director.slot(0);
    director.slot(2);
}

fn full_table(text: &mut String) {
    text.push_str("one slot: FIN both ways, SYN of the same client\n");
    one_finished(text).client_sends(40001, SYN, 3);
}

fn all_weights_0(text: &mut String) {
    text.push_str("all weights 0: FIN both ways, SYN of the same client; its slot, then an ACK\n");
    let mut director = one_finished(text);
    director.set_weight(0, 0);
    director.client_sends(40001, SYN, 3);
    director.slot(0);
    director.client_sends(40001, ACK, 4);
    director.slot(0);
}

pub fn renewals(text: &mut String) {
    lowered_count(text);
    lower_slot(text);
    full_table(text);
    all_weights_0(text);
}
