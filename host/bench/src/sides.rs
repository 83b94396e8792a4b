//! One call on a scene, by each side.

use crate::plain;
use crate::scene::{Call, Scene, CLOCK, NEW};
use nidhaaguf::raw;

/// The state of an opening is thrown away, and its slot freed, so that each call meets the same table.
fn free_opened(scene: &mut Scene) {
    let opened = raw::WORDS_PER_SLOT * scene.plan.used();
    scene.row[opened..].fill(0);
}

pub fn library(scene: &mut Scene) -> u64 {
    scene.set_packet();
    let answer = match scene.call {
        Call::Tick => raw::tick(scene.state, &mut scene.row, CLOCK),
        Call::Outbound => raw::outbound(scene.state, &mut scene.row, &mut scene.packet, CLOCK),
        _ => raw::inbound(scene.state, &mut scene.row, &mut scene.packet, CLOCK),
    };
    if scene.call == Call::Opening && answer.refusal == 0 {
        free_opened(scene);
    }
    u64::from(answer.refusal) * 100 + u64::from(answer.change)
}

pub fn reference(scene: &mut Scene) -> u64 {
    scene.set_packet();
    let mut state = scene.twin;
    let answer = match scene.call {
        Call::Tick => reference::tick(&mut state, &mut scene.row, CLOCK),
        Call::Outbound => reference::outbound(&mut state, &mut scene.row, &mut scene.packet, CLOCK),
        _ => reference::inbound(&mut state, &mut scene.row, &mut scene.packet, CLOCK),
    };
    if scene.call == Call::Opening && matches!(answer, reference::Answer::Passed(..)) {
        free_opened(scene);
    }
    match answer {
        reference::Answer::Refused(number) => u64::from(number) * 100,
        reference::Answer::Passed(_, reference::Change::Opened) => 1,
        reference::Answer::Passed(..) => 2,
        _ => 0,
    }
}

/// Not of an outbound packet: its rewriting is another.
pub fn plain(scene: &mut Scene) -> u64 {
    scene.set_packet();
    let mut servers = scene.twin.servers;
    let service = scene.twin.service;
    let n = service.servers as usize;
    let sound = plain::is_sound(&servers, n, &scene.row, CLOCK);
    let removed = plain::expire(&mut scene.row, &mut servers, CLOCK);
    if scene.call == Call::Tick {
        return u64::from(sound) * 1000 + u64::from(removed);
    }
    let wanted = if scene.call == Call::Opening { NEW } else { plain::source(&scene.packet) };
    let found = plain::find(&scene.row, wanted).or_else(|| plain::find_free(&scene.row));
    let Some(slot) = found else { return 1300 };
    let server = servers[scene.row[5 * slot + 3] as usize % n];
    plain::redirect(&mut scene.packet, server.address, server.port);
    u64::from(sound) + slot as u64 + u64::from(scene.packet[16])
}
