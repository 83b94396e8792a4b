//! The wrapper: what goes in and comes out of the library through it.

use crate::support::{settings, turned, SYN};
use nidhaaguf::{raw, Change, Director, Passed, Refusal};

#[test]
fn setup_refusals() {
    assert!(Director::set_up(&settings(1), 1).is_ok());
    assert!(Director::set_up(&settings(64), 4_096).is_ok());
    for servers in [0, 65, 300] {
        assert_eq!(Director::set_up(&settings(servers), 1), Err(Refusal::Sizes));
    }
    for slots in [0, 4_097, usize::MAX] {
        assert_eq!(Director::set_up(&settings(1), slots), Err(Refusal::Sizes));
    }
    let mut unset = settings(2);
    unset.service.set_port(0);
    assert_eq!(Director::set_up(&unset, 1), Err(Refusal::Service));
    let mut unset = settings(2);
    unset.servers[1].at.set_port(0);
    assert_eq!(Director::set_up(&unset, 1), Err(Refusal::ServerUnset));
    let mut repeated = settings(2);
    repeated.servers[1] = repeated.servers[0];
    assert_eq!(Director::set_up(&repeated, 1), Err(Refusal::ServerRepeated));
}

#[test]
fn a_connection_from_its_syn_to_its_reset() {
    let mut director = Director::set_up(&settings(2), 1).unwrap();
    assert_eq!((director.slots(), director.clock()), (1, 0));
    let mut packet = SYN;
    let opened = Passed { server: 0, change: Change::Opened };
    assert_eq!(director.inbound(&mut packet, 7), Ok(opened));
    assert_eq!((director.clock(), director.count(0)), (7, Ok(1)));

    // the same bytes the other way: from the server to the client
    let mut back = turned(packet);
    let kept = Passed { server: 0, change: Change::Kept };
    assert_eq!(director.outbound(&mut back, 8), Ok(kept));
    assert_eq!(back[12..16], [192, 0, 2, 10]);
    assert_eq!(back[20..22], 5432_u16.to_be_bytes());
    // it came from the virtual end as the client's packet went to it: the same sums
    assert_eq!((&back[10..12], &back[36..38]), (&SYN[10..12], &SYN[36..38]));

    let mut reset = SYN;
    reset[33] = 0x04;
    let ended = Passed { server: 0, change: Change::Ended };
    assert_eq!(director.inbound(&mut reset, 9), Ok(ended));
    assert_eq!(director.count(0), Ok(0));
}

#[test]
fn refusals_leave_the_packet_and_some_take_the_clock() {
    let mut director = Director::set_up(&settings(1), 1).unwrap();
    let mut fin = SYN;
    fin[33] = 0x11;
    let before = fin;
    assert_eq!(director.inbound(&mut fin, 5), Err(Refusal::NoConnection));
    assert_eq!((fin, director.clock()), (before, 5));
    assert_eq!(director.inbound(&mut [], 6), Err(Refusal::MalformedHeader));
    assert_eq!(director.inbound(&mut fin[..39], 6), Err(Refusal::MalformedHeader));
    assert_eq!(director.outbound(&mut fin, 6), Err(Refusal::OtherEndpoint));
    // a bit of the time to live
    fin[8] ^= 1;
    assert_eq!(director.inbound(&mut fin, 6), Err(Refusal::BadChecksum));
    assert_eq!(director.clock(), 5);
    director.set_weight(0, 0).unwrap();
    assert_eq!(director.inbound(&mut SYN.clone(), 6), Err(Refusal::NoWeight));
    assert_eq!(director.inbound(&mut SYN.clone(), 5), Err(Refusal::EarlierClock));
    let taking: Vec<u32> = Refusal::ALL
        .into_iter()
        .filter(|refusal| refusal.keeps_clock())
        .map(Refusal::number)
        .collect();
    assert_eq!(taking, [12, 13, 14]);
}

#[test]
fn servers_that_are_not_there() {
    let mut director = Director::set_up(&settings(3), 1).unwrap();
    for server in [3, 64, u32::MAX as usize, 1 << 32, usize::MAX] {
        assert_eq!(director.set_weight(server, 1), Err(Refusal::NoServer));
        assert_eq!(director.count(server), Err(Refusal::NoServer));
    }
}

#[test]
fn weights_and_used_slots_are_told() {
    let mut director = Director::set_up(&settings(2), 3).unwrap();
    assert_eq!((director.weight(0), director.weight(1), director.used()), (Some(1), Some(1), 0));
    director.set_weight(1, 65_535).unwrap();
    assert_eq!((director.weight(0), director.weight(1)), (Some(1), Some(65_535)));
    for server in [2, 63, 64, usize::MAX] {
        assert_eq!(director.weight(server), None);
    }
    for port in 1..=3_u8 {
        let mut packet = SYN;
        packet[21] = port;
        director.inbound(&mut packet, 10).unwrap();
        assert_eq!(director.used(), u32::from(port));
    }
    assert_eq!(director.tick(910), Ok(3));
    assert_eq!(director.used(), 0);
}

#[test]
fn refusals_by_number() {
    for refusal in Refusal::ALL {
        let number = refusal.number();
        assert_eq!(Refusal::of_number(number), Some(refusal));
        assert_eq!(refusal.to_string(), format!("{} ({number})", refusal.words()));
    }
    assert!(Refusal::ALL.is_sorted_by_key(|refusal| refusal.number()));
    for number in [0, 16, 17, 18, 19, 21, u32::MAX] {
        assert_eq!(Refusal::of_number(number), None);
    }
}

#[test]
fn the_raw_layer_takes_any_state() {
    let state = raw::State { place: u64::MAX, ..raw::State::default() };
    let answer = raw::count(state, &[], 0);
    assert_eq!((answer.refusal, answer.number, answer.change), (15, 0, 0));
    assert_eq!(answer.state, state);
}
