//! One call on both sides, with the same input, and what must hold of it.

use crate::call::{Call, Told};
use crate::lent::Lent;
use crate::sides::{Reference, Side};
use crate::world::World;
use nidhaaguf::Refusal;
use reference::book::{self, Book};
use reference::data::UDP;
use reference::{packets, refusal, Answer, State};

/// What a call has left.
#[derive(Debug, PartialEq, Eq)]
struct Left {
    told: Told,
    state: State,
    row: Option<Vec<u32>>,
    packet: Option<Vec<u8>>,
}

/// A call on which both agree: the answer, the packet as it left, the world after.
#[derive(Debug)]
pub struct Stepped {
    pub told: Told,
    pub packet: Vec<u8>,
    pub world: World,
}

/// Makes the call on `side` and on the reference and compares them. With a book, demand 3 is checked on the answer of
/// `side`.
pub fn step(
    side: &dyn Side,
    call: &Call,
    world: &World,
    book: Option<&mut Book>,
) -> Result<Stepped, String> {
    let left = make(side, call, world);
    let wanted = make(&Reference, call, world);
    same(&left, &wanted)?;
    let packet = left.packet.ok_or("both have written past the packet")?;
    let row = left.row.ok_or("both have written past the row")?;
    let answer = left.told.answer(call).ok_or("no such answer to this call")?;
    if let Some(refusal) = Refusal::of_number(left.told.refusal) {
        check_refused(call, world, refusal, &left.state, &row, &packet)?;
    }
    if matches!(answer, Answer::Passed(..)) {
        sums_verify(call.packet(), &packet)?;
    }
    let row = if call.keeps_row(left.told) { row } else { world.row.clone() };
    let after = World { state: left.state, row };
    if let Some(book) = book {
        check_book(book, call, answer, &packet, &after)?;
    }
    Ok(Stepped { told: left.told, packet, world: after })
}

/// A refused call leaves state and row as they were, or as a tick at its clock leaves them; and the packet as it was.
fn check_refused(
    call: &Call,
    world: &World,
    refusal: Refusal,
    state: &State,
    row: &[u32],
    packet: &[u8],
) -> Result<(), String> {
    let (mut wanted, mut wanted_row) = (world.state, call.row(world));
    if let (true, Some(clock)) = (refusal.keeps_clock(), call.clock()) {
        Reference.make(&Call::Tick { clock }, &mut wanted, &mut wanted_row, &mut []);
    }
    match *state == wanted && row == wanted_row && packet == call.packet() {
        true => Ok(()),
        false => Err(format!("refused, and changed more than it may: {refusal}")),
    }
}

/// Demand 3, and that a state which an accepted setup and calls have made never receives 15.
fn check_book(
    book: &mut Book,
    call: &Call,
    answer: Answer,
    packet: &[u8],
    after: &World,
) -> Result<(), String> {
    if book.settings.is_some() && answer == Answer::Refused(refusal::UNSOUND) {
        return Err("15 in a list that began with an accepted setup".into());
    }
    let checked = book::check(book, call.for_book(), answer, packet, &after.counts());
    checked.map_err(|complaint| format!("the book: {complaint}"))
}

fn make(side: &dyn Side, call: &Call, world: &World) -> Left {
    let mut state = world.state;
    let mut row = Lent::new(&call.row(world), 16, 0xA5A5_A5A5);
    // packets begin at any address
    let first = 16 + call.packet().len() % 8;
    let mut packet = Lent::new(call.packet(), first, 0xA5);
    let told = side.make(call, &mut state, row.part(), packet.part());
    Left { told, state, row: row.back(), packet: packet.back() }
}

fn same(left: &Left, wanted: &Left) -> Result<(), String> {
    if left == wanted {
        return Ok(());
    }
    let mut differences = Vec::new();
    if left.told != wanted.told {
        differences.push(format!("answer {:?}, not {:?}", left.told, wanted.told));
    }
    if left.state != wanted.state {
        differences.push(state_difference(&left.state, &wanted.state));
    }
    if left.row != wanted.row {
        differences.push(items_difference("row", &left.row, &wanted.row));
    }
    if left.packet != wanted.packet {
        differences.push(items_difference("packet", &left.packet, &wanted.packet));
    }
    Err(differences.join("; "))
}

pub(crate) fn state_difference(left: &State, wanted: &State) -> String {
    let mut parts = Vec::new();
    if left.service != wanted.service {
        parts.push(format!("{:?}, not {:?}", left.service, wanted.service));
    }
    let numbers = [
        ("clock", left.clock, wanted.clock),
        ("largest weight", left.largest_weight.into(), wanted.largest_weight.into()),
        ("divisor", left.weight_divisor.into(), wanted.weight_divisor.into()),
    ];
    let other = numbers.into_iter().filter(|(_, left, wanted)| left != wanted);
    parts.extend(other.map(|(name, left, wanted)| format!("{name} {left}, not {wanted}")));
    if left.walk != wanted.walk {
        parts.push(format!("{:?}, not {:?}", left.walk, wanted.walk));
    }
    for (number, (left, wanted)) in left.servers.iter().zip(&wanted.servers).enumerate() {
        if left != wanted {
            parts.push(format!("server {number} {left:?}, not {wanted:?}"));
        }
    }
    format!("state: {}", parts.join(", "))
}

pub(crate) fn items_difference<T: PartialEq + std::fmt::Debug>(
    name: &str,
    left: &Option<Vec<T>>,
    wanted: &Option<Vec<T>>,
) -> String {
    let (Some(left), Some(wanted)) = (left, wanted) else {
        return format!("{name}: written past its end");
    };
    let places: Vec<String> = (0..left.len().min(wanted.len()))
        .filter(|&at| left[at] != wanted[at])
        .map(|at| format!("[{at}] {:?}, not {:?}", left[at], wanted[at]))
        .collect();
    format!("{name} {}", places.join(", "))
}

/// "the outgoing one verifies exactly if the incoming one did (UDP 0 apart)"
fn sums_verify(came: &[u8], left: &[u8]) -> Result<(), String> {
    if !packets::header_verifies(left) {
        return Err("the header checksum that left doesn't verify".into());
    }
    let sum_at = usize::from(came[0] & 15) * 4 + 6;
    let no_sum = came[9] == UDP && came[sum_at..sum_at + 2] == [0, 0];
    if !no_sum && packets::transport_verifies(came) != packets::transport_verifies(left) {
        return Err("the transport checksum verifies on one side of the director only".into());
    }
    Ok(())
}
