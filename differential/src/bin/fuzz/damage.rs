//! Inputs and overlays that were right, damaged: bytes changed, cut, doubled and exchanged, counts and lengths made
//! others, pieces of other inputs put in.
use crate::shape;
use differential::form::Form;
use differential::gens::{damaged, gained, wild_alert_sheet, wild_card, wild_vehicle_sheet};
use differential::panel::Call;
use differential::questions::{LONGEST_CARD, LONGEST_INPUT};
use differential::random::Random;
use differential::tree::Type;
use differential::turns::input;
use differential::wire::{number, overlong};

/// One input in so many is as long as question 3 lets it be, or a byte longer.
const LONG: usize = 5_000;

/// The most bytes of a damaged input or overlay.
const MOST: usize = 4_096;

/// Numbers at which a byte, a word or a limit ends.
const EDGES: &[u64] = &[
    0,
    1,
    16,
    17,
    32,
    33,
    64,
    65,
    127,
    128,
    129,
    255,
    256,
    2_048,
    2_049,
    1 << 16,
    1 << 31,
    1 << 32,
    1 << 63,
    u64::MAX,
];

/// A field's key.
pub fn key(random: &mut Random, field: u64) -> Vec<u8> {
    number(field << 3 | random.below(8) as u64)
}

pub fn edge(random: &mut Random) -> Vec<u8> {
    let value = random.pick(EDGES);
    let shortest = number(value).len();
    match random.below(4) {
        0 => overlong(value, shortest + random.below(11 - shortest)),
        1 => value.to_le_bytes()[..1 + random.below(8)].to_vec(),
        _ => number(value),
    }
}

/// A stretch of some bytes, by its two ends.
fn stretch(random: &mut Random, length: usize) -> std::ops::Range<usize> {
    let from = random.below(length + 1);
    from..length.min(from + random.below(40))
}

fn exchanged(bytes: &[u8], one: std::ops::Range<usize>, other: std::ops::Range<usize>) -> Vec<u8> {
    let (one, other) = if one.start <= other.start { (one, other) } else { (other, one) };
    if one.end > other.start {
        return bytes.into();
    }
    let parts = [
        &bytes[..one.start],
        &bytes[other.clone()],
        &bytes[one.end..other.start],
        &bytes[one],
        &bytes[other.end..],
    ];
    parts.concat()
}

/// The bytes with one to four faults; pieces of `others` may stand in them.
pub fn hurt(random: &mut Random, mut bytes: Vec<u8>, others: &[&[u8]]) -> Vec<u8> {
    for _ in 0..1 + random.below(4) {
        let place = stretch(random, bytes.len());
        match random.below(8) {
            0..=2 => bytes = damaged(random, bytes),
            3 => {
                let other = random.pick(others);
                let piece = &other[stretch(random, other.len())];
                bytes.splice(place, piece.iter().copied());
            }
            4 => {
                let other = stretch(random, bytes.len());
                bytes = exchanged(&bytes, place, other);
            }
            5 => drop(bytes.splice(place.start..place.start, edge(random))),
            6 => drop(bytes.splice(place.start..bytes.len().min(place.start + 1), edge(random))),
            _ => {
                let piece = bytes[place.clone()].repeat(random.below(12));
                bytes.splice(place, piece);
            }
        }
        bytes.truncate(MOST);
    }
    bytes
}

/// The input changed as a value, or damaged; a wild one now and then.
fn other(random: &mut Random, call: &Call, others: &[&[u8]]) -> Vec<u8> {
    let bytes = input(call);
    let shaped = match (random.below(5), call) {
        (0, Call::AlertSheet { .. }) => Some(wild_alert_sheet(random).written()),
        (0, Call::VehicleSheet { .. }) => Some(wild_vehicle_sheet(random).written()),
        (0, Call::Card { .. }) => Some(wild_card(random).written()),
        (0, Call::Message { .. }) => Some(gained(random, bytes)),
        (1, _) => None,
        (_, Call::AlertSheet { .. }) => shape::alert_sheet(random, bytes),
        (_, Call::VehicleSheet { .. }) => shape::vehicle_sheet(random, bytes),
        (_, Call::Card { .. }) => shape::card(random, bytes),
        _ => Some(shape::message(random, Type::FeedMessage, bytes)),
    };
    let mut bytes = shaped.unwrap_or_else(|| hurt(random, bytes.into(), others));
    if random.once_in(LONG) {
        let most = if matches!(call, Call::Card { .. }) { LONGEST_CARD } else { LONGEST_INPUT };
        bytes.resize(most + random.below(2), 0);
    }
    bytes
}

/// The call with its feed id, its clock or its input changed.
pub fn changed(random: &mut Random, mut call: Call, others: &[&[u8]]) -> Call {
    let bytes = other(random, &call, others);
    let in_feed = random.once_in(12);
    match &mut call {
        Call::VehicleSheet { clock, .. } if random.once_in(8) => {
            *clock = random.bits().cast_signed() >> random.below(64);
        }
        Call::Message { feed, .. }
        | Call::AlertSheet { feed, .. }
        | Call::VehicleSheet { feed, .. }
        | Call::Report { feed }
            if in_feed =>
        {
            *feed = hurt(random, std::mem::take(feed), others);
        }
        Call::Message { message: input, .. }
        | Call::AlertSheet { sheet: input, .. }
        | Call::VehicleSheet { sheet: input, .. }
        | Call::Card { card: input } => *input = bytes,
        Call::Fresh | Call::Report { .. } => {}
    }
    call
}
