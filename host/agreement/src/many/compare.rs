//! One burst or serve on a side, and beside it the reference's single calls.

use super::call::Many;
use super::left::make;
use super::sides::ManySide;
use super::wanted::{wanted, Wanted};
use crate::world::World;

/// Makes it on `side` and compares what it leaves with what is wanted.
pub fn step(side: &dyn ManySide, many: &Many, world: &World) -> Result<Wanted, String> {
    let wanted = wanted(many, world);
    match make(side, many, world).difference(&wanted.left) {
        difference if difference.is_empty() => Ok(wanted),
        difference => Err(difference),
    }
}
