//! The states that are drawn are what they are said to be.

use agreement::call::{Call, Told};
use agreement::sides::{from_library, to_library, Library, Side};
use agreement::world::World;
use agreement::worlds::{breaks::BREAKS, junk, sound};
use random::Rng;

fn tick_now(world: &World) -> Told {
    let (mut state, mut row) = (world.state, world.row.clone());
    Library.make(&Call::Tick { clock: state.clock }, &mut state, &mut row, &mut [])
}

#[test]
fn sound_worlds_are_sound() {
    let mut rng = Rng::new(1);
    let mut doubled = 0;
    for _ in 0..3_000 {
        let world = sound::world(&mut rng);
        assert!(world.is_sound(), "{world:?}");
        assert_eq!(tick_now(&world).refusal, 0, "{world:?}");
        let mut clients: Vec<_> =
            world.row.chunks(5).filter(|s| s[0] != 0).map(|s| (s[1], s[2])).collect();
        let used = clients.len();
        clients.sort_unstable();
        clients.dedup();
        doubled += usize::from(clients.len() < used);
    }
    assert!(doubled > 300, "{doubled} worlds with a client in two slots");
}

#[test]
fn each_break_alone_makes_a_world_unsound() {
    let mut rng = Rng::new(2);
    for broken in &BREAKS {
        let mut times = 0;
        while times < 200 {
            let mut world = sound::world(&mut rng);
            if (broken.apply)(&mut rng, &mut world) {
                times += 1;
                assert!(!world.is_sound(), "{}: {world:?}", broken.rule);
                assert_eq!(tick_now(&world).refusal, 15, "{}: {world:?}", broken.rule);
            }
        }
    }
}

#[test]
fn largest_weight_and_divisor_go_by_their_names() {
    let mut state = junk::world(&mut Rng::new(4)).state;
    (state.largest_weight, state.weight_divisor) = (6, 2);
    let other = to_library(&state);
    assert_eq!((other.largest_weight, other.weight_divisor), (6, 2));
    assert_eq!(from_library(&other), state);
}

#[test]
fn any_place_has_its_other_form() {
    let mut rng = Rng::new(3);
    let mut state = junk::world(&mut rng).state;
    let forms = [(-1, 0), (0, 1), (63, 64), (-2, u64::MAX), (i64::MAX, 1 << 63)];
    for (place, other) in forms {
        state.walk.place = place;
        assert_eq!(to_library(&state).place, other);
        assert_eq!(from_library(&to_library(&state)), state);
    }
}
