//! The clock.

use live::clock::Clock;
use std::time::Duration;

/// Of the machine's time.
const START: Duration = Duration::from_secs(4_711);

fn clock(speed: u32) -> Clock {
    Clock { zero: START, speed }
}

#[test]
fn seconds_by_speed() {
    for (speed, milliseconds, second) in [
        (1, 0, 0),
        (1, 999, 0),
        (1, 1_000, 1),
        (1, 90_500, 90),
        (100, 9, 0),
        (100, 10, 1),
        (1000, 7, 7),
    ] {
        let clock = clock(speed);
        assert_eq!(clock.second(START + Duration::from_millis(milliseconds)), second);
    }
}

#[test]
fn it_stays_at_the_last_second() {
    let last = Duration::from_secs(u64::from(u32::MAX));
    let slow = clock(1);
    assert_eq!(slow.second(START + last - Duration::from_nanos(1)), u32::MAX - 1);
    for past in [0, 1, 1_000_000] {
        assert_eq!(slow.second(START + last + Duration::from_secs(past)), u32::MAX);
    }
    assert_eq!(clock(1000).second(START + last / 999), u32::MAX);
}

#[test]
fn a_time_before_the_start_is_second_0() {
    assert_eq!(clock(1).second(Duration::ZERO), 0);
}

#[test]
fn the_wait_ends_in_the_next_second() {
    for speed in [1, 3, 7, 100, 1000] {
        let clock = clock(speed);
        for microseconds in [0, 1, 333, 999, 1_000, 142_857, 999_999, 3_333_333] {
            let now = START + Duration::from_micros(microseconds);
            let wait = clock.until_next(now);
            assert_eq!(clock.second(now + wait), clock.second(now) + 1);
            assert_eq!(clock.second(now + wait - Duration::from_nanos(1)), clock.second(now));
        }
    }
}

#[test]
fn it_shows_the_time_since_the_machine_started_unless_it_is_faster() {
    assert_eq!(Clock::new(START, 1).second(START), 4_711);
    assert_eq!(Clock::new(START, 8).second(START), 0);
    assert_eq!(Clock::new(START, 8).second(START + Duration::from_secs(1)), 8);
}
