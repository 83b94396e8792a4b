//! Shortening a failing list by dropping calls.

use crate::call::Call;
use crate::case::Kind;
use crate::compare;
use crate::run::book_for;
use crate::sides::Side;
use crate::world::World;

/// Makes the calls of these places, in order. The complaint, if they don't go well.
pub fn replay(
    side: &dyn Side,
    kind: Kind,
    first: &World,
    calls: &[Call],
    places: &[usize],
) -> Option<String> {
    let mut world = first.clone();
    let mut book = book_for(kind);
    for &place in places {
        match compare::step(side, &calls[place], &world, book.as_mut()) {
            Ok(stepped) => world = stepped.world,
            Err(complaint) => return Some(complaint),
        }
    }
    None
}

/// Fewer places that fail as well: greedily, halves of them first, until none can be left out.
pub fn shorten(mut places: Vec<usize>, fails: impl Fn(&[usize]) -> bool) -> Vec<usize> {
    let mut step = places.len().div_ceil(2);
    while step > 0 {
        let fewer = without_parts(places.clone(), step, &fails);
        if step > 1 || fewer.len() == places.len() {
            step /= 2;
        }
        places = fewer;
    }
    places
}

/// Leaves out parts of so many places, the last ones first: the calls that fill a table stay longest.
fn without_parts(
    mut places: Vec<usize>,
    step: usize,
    fails: impl Fn(&[usize]) -> bool,
) -> Vec<usize> {
    for first in (0..places.len()).step_by(step).rev() {
        let end = (first + step).min(places.len());
        let fewer = [&places[..first], &places[end..]].concat();
        if fails(&fewer) {
            places = fewer;
        }
    }
    places
}
