//! Random messages: fields in any order, repeated, merged and overwritten, deleted entities, unlisted
//! fields and groups at every level, numbers in more bytes than they need.
use super::*;
use crate::wire::{group, number, overlong};

/// Numbers that no listed message has, below those that prost knows an unlisted field by.
const UNLISTED: &[u64] = &[7, 8, 15, 16, 99, 2_047, 499_999_999];

pub fn message(random: &mut Random) -> Vec<u8> {
    let mut parts = random.list(5, |random| {
        let fields = entity(random);
        delimited(random, 2, &fields)
    });
    parts.extend(random.list(2, |random| {
        let fields = header(random);
        delimited(random, 1, &fields)
    }));
    mixed(random, parts, &[3, 4])
}

fn header(random: &mut Random) -> Vec<u8> {
    let parts = random.list(3, |random| match random.below(2) {
        0 => {
            let value = random.pick(&[0, 1, 1, 1, 7, 1 << 32, (1 << 32) + 1, u64::MAX]);
            varint(random, 2, value)
        }
        _ => {
            let value = random.pick(&[0, 1_767_265_200, u64::MAX, 1 << 63]);
            varint(random, 3, value)
        }
    });
    mixed(random, parts, &[1, 4])
}

fn entity(random: &mut Random) -> Vec<u8> {
    let updates = if random.once_in(4) { random.below(3) } else { 1 };
    let mut parts: Vec<_> = (0..updates)
        .map(|_| {
            let fields = trip_update(random);
            delimited(random, 3, &fields)
        })
        .collect();
    if random.once_in(3) {
        let value = random.pick(&[0, 0, 1, 2, 1 << 32]);
        parts.push(varint(random, 2, value));
    }
    mixed(random, parts, &[1, 4, 5])
}

fn trip_update(random: &mut Random) -> Vec<u8> {
    let trips = if random.once_in(6) { random.below(3) } else { 1 };
    let mut parts: Vec<_> = (0..trips)
        .map(|_| {
            let fields = trip(random);
            delimited(random, 1, &fields)
        })
        .collect();
    parts.extend(random.list(4, |random| {
        let fields = stop_time_update(random);
        delimited(random, 2, &fields)
    }));
    parts.extend(random.maybe(|random| signed(random, 5, delay)));
    mixed(random, parts, &[3, 4])
}

fn trip(random: &mut Random) -> Vec<u8> {
    let mut parts = random.list(7, |random| match random.below(6) {
        0 => stocked(random, 1, TRIPS),
        1 => stocked(random, 2, CLOCKS),
        2 => stocked(random, 3, DATES),
        3 => {
            let value = random.pick(&[0, 1, 3, 5, 99, (1 << 32) + 3]);
            varint(random, 4, value)
        }
        4 => stocked(random, 5, ROUTES),
        _ => {
            let value = random.pick(&[0, 1, 1 << 32, 4_294_967_295]);
            varint(random, 6, value)
        }
    });
    parts.extend(random.maybe(|random| stocked(random, 1, TRIPS)));
    mixed(random, parts, &[])
}

fn stop_time_update(random: &mut Random) -> Vec<u8> {
    let parts = random.list(5, |random| match random.below(6) {
        0 | 1 => {
            let value = sequence(random) + if random.once_in(8) { 1 << 32 } else { 0 };
            varint(random, 1, value)
        }
        2 | 3 => {
            let fields = event(random);
            let field = random.pick(&[2, 3]);
            delimited(random, field, &fields)
        }
        4 => stocked(random, 4, STOPS),
        _ => {
            let value = random.pick(&[0, 1, 1, 2, 9, (1 << 32) + 1]);
            varint(random, 5, value)
        }
    });
    mixed(random, parts, &[])
}

fn event(random: &mut Random) -> Vec<u8> {
    let parts = random.list(3, |random| match random.below(3) {
        0 if random.once_in(20) => signed(random, 2, |random| random.pick(&[-1, 4_102_444_801, i64::MIN])),
        0 => signed(random, 2, feed_time),
        _ => signed(random, 1, delay),
    });
    mixed(random, parts, &[3])
}

/// The parts in any order, with unlisted fields between them now and then.
pub(super) fn mixed(random: &mut Random, mut parts: Vec<Vec<u8>>, unlisted_here: &[u64]) -> Vec<u8> {
    while random.once_in(5) {
        let field = if random.once_in(2) { UNLISTED } else { unlisted_here };
        if let Some(field) = (!field.is_empty()).then(|| random.pick(field)) {
            parts.push(unlisted(random, field, 3));
        }
    }
    for end in (1..parts.len()).rev() {
        parts.swap(end, random.below(end + 1));
    }
    parts.concat()
}

/// A field to be skipped, groups in groups among them.
pub(super) fn unlisted(random: &mut Random, field: u64, deepest: usize) -> Vec<u8> {
    let key = |random: &mut Random, wire_type| any_number(random, field << 3 | wire_type);
    match random.below(if deepest == 0 { 4 } else { 5 }) {
        0 => {
            let value = random.bits() >> random.below(64);
            varint(random, field, value)
        }
        1 => [key(random, 1), random.bits().to_le_bytes().to_vec()].concat(),
        2 => [key(random, 5), (random.bits() as u32).to_le_bytes().to_vec()].concat(),
        3 => {
            let bytes = random.list(4, |random| random.bits() as u8);
            delimited(random, field, &bytes)
        }
        _ => {
            let fields = random.list(2, |random| {
                let inner = random.pick(&[1, 2, 3, 16]);
                unlisted(random, inner, deepest - 1)
            });
            // Now and then groups as deep as they may be, and one deeper.
            if random.once_in(20) {
                return crate::wire::groups(field, 16 + random.below(2));
            }
            group(field, &fields.concat())
        }
    }
}

fn any_number(random: &mut Random, value: u64) -> Vec<u8> {
    if random.once_in(12) {
        let shortest = number(value).len();
        return overlong(value, shortest + random.below(11 - shortest));
    }
    number(value)
}

pub(super) fn varint(random: &mut Random, field: u64, value: u64) -> Vec<u8> {
    [any_number(random, field << 3), any_number(random, value)].concat()
}

fn signed(random: &mut Random, field: u64, value: impl FnOnce(&mut Random) -> i64) -> Vec<u8> {
    let value = value(random).cast_unsigned();
    varint(random, field, value)
}

pub(super) fn delimited(random: &mut Random, field: u64, bytes: &[u8]) -> Vec<u8> {
    [any_number(random, field << 3 | 2), any_number(random, bytes.len() as u64), bytes.into()].concat()
}

fn stocked(random: &mut Random, field: u64, stock: &[&str]) -> Vec<u8> {
    let text = if random.once_in(60) { "\u{e9}\n".into() } else { any(random, stock) };
    delimited(random, field, text.as_bytes())
}
