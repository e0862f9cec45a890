//! Messages near the bounds of question 7: as many keys, or updates of one record, as a feed may have, and some more.
use differential::messages::*;
use differential::random::Random;

pub fn message(random: &mut Random) -> Vec<u8> {
    let mut parts = match random.below(3) {
        0 => keys(random),
        1 => updates(random),
        _ => [updates(random), keys(random), updates(random)].concat(),
    };
    if random.once_in(2) {
        parts.push(header(&[incrementality(DIFFERENTIAL)]));
    }
    parts.concat()
}

/// About 2,048 keys, in any order, some of them twice; of trips with a date two each.
fn keys(random: &mut Random) -> Vec<Vec<u8>> {
    let dated = random.once_in(2);
    let most = if dated { 1_024 } else { 2_048 };
    let count = match random.below(3) {
        0 => most - 2 + random.below(5),
        1 => most / 2 + random.below(5),
        _ => random.below(most),
    };
    // Odd, and so prime to the power of two that ids are taken below: each id once.
    let step = 2 * random.below(2_048) + 1;
    let mut entities: Vec<_> = (0..count)
        .map(|turn| {
            let id = trip_id(&format!("T{}", turn * step % 4_096));
            let date = if dated { start_date("20260101") } else { vec![] };
            entity(&[trip_update(&[trip(&[id, date])])])
        })
        .collect();
    for _ in 0..random.below(8) {
        entities.extend(entities.get(random.below(count + 1)).cloned());
    }
    entities
}

/// An entity of about 128 updates, in one part or two, in any order, some sequences twice; and perhaps a later one at the same key.
fn updates(random: &mut Random) -> Vec<Vec<u8>> {
    let count = 120 + random.below(16);
    let step = 2 * random.below(128) + 1;
    let mut updates: Vec<_> = (0..count)
        .map(|turn| stop_time_update(&[stop_sequence((turn * step % 256) as i64), stop_id("A")]))
        .collect();
    for _ in 0..random.below(8) {
        let sequence = random.below(256) as i64;
        updates.push(stop_time_update(&[stop_sequence(sequence), stop_id("B")]));
    }
    let (first, second) = updates.split_at(random.below(updates.len()));
    let named = || trip(&[trip_id("U")]);
    let mut entities =
        vec![entity(&[trip_update(&[first.concat(), named()]), trip_update(&[second.concat()])])];
    if random.once_in(3) {
        entities.push(entity(&[trip_update(&[named(), trip_delay(60)])]));
    }
    entities
}
