//! The port's index of what a message leaves beside the original's `apply_trip_updates`, and alone on the largest
//! messages.
use crate::clock::{best, millis};
use crate::inputs::full;
use differential::messages::*;
use differential::port::{judge, Index};
use differential::rt::decode::apply_trip_updates;
use differential::rt::overlay::FeedRtState;
use differential::samples::NOON;
use differential::wire::{delimited, group, groups, varint};
use std::hint::black_box;

const MIB: usize = 1 << 20;

/// No old trips.
const NONE: &[u8] = &[0];

/// A message judged, and judged and indexed, which is what a decoder does and more.
pub fn index() -> bool {
    let message = full(0..500);
    let mut index = Index::default();
    let mut state = FeedRtState::new("IDFM");
    let [judged, whole, original] = best(300, || {
        let message = black_box(&message);
        [
            millis(|| judge(message)),
            millis(|| index.leave(b"IDFM", message, NONE)),
            millis(|| apply_trip_updates("IDFM", message, &mut state)),
        ]
    });
    assert_eq!((state.trips.len(), index.leave(b"IDFM", &message, NONE)), (1000, Ok(1000)));
    println!("| FULL, 500 trips with 20 updates, {} bytes | ms |\n|---|---|", message.len());
    println!("| port: questions 4 to 6 on every listed value | {judged:.3} |");
    println!("| port: the same, then keys and records found and counted | {whole:.3} |");
    println!("| original: decoded and put into its map | {original:.3} |");
    true
}

/// As many as go into 1 MiB, 32 bytes left for what stands around them.
pub fn filled(part: &[u8]) -> Vec<u8> {
    part.repeat((MIB - 32) / part.len())
}

pub fn largest() -> Vec<(&'static str, Vec<u8>)> {
    let named = |id: &str| trip(&[trip_id(id)]);
    let record = |fields: Vec<u8>| entity(&[trip_update(&[named("a"), fields])]);
    let dated =
        |fields: Vec<u8>| entity(&[trip_update(&[trip(&[trip_id("a"), start_date("20260101")]), fields])]);
    let keys: Vec<u8> =
        (0..2048).rev().flat_map(|key| entity(&[trip_update(&[named(&format!("{key:04}"))])])).collect();
    let descending: Vec<u8> =
        (1..=128).rev().flat_map(|turn| stop_time_update(&[stop_sequence(turn)])).collect();
    let ascending: Vec<u8> = (1..=127).flat_map(|turn| stop_time_update(&[stop_sequence(turn)])).collect();
    let unnumbered = stop_time_update(&[]).repeat((MIB - 64 - ascending.len()) / 2);
    let events = stop_time_update(&[arrival(&[delay(1)]), departure(&[delay(1)])]);
    let deep = (0..16).fold(filled(&varint(15, 1)), |inner, _| group(15, &inner));
    vec![
        ("empty entities", filled(&entity(&[]))),
        ("entities with an empty trip_update", filled(&entity(&[trip_update(&[])]))),
        ("entities at 2,048 keys, from the last to the first, over and over", filled(&keys)),
        ("an entity of empty trip_updates", entity(&[filled(&trip_update(&[]))])),
        ("a record of empty updates", record(filled(&stop_time_update(&[])))),
        ("a record of updates, 128 to 1 over and over", record(filled(&descending))),
        (
            "a dated record of updates, 1 to 127 and then without a sequence",
            dated([ascending, unnumbered].concat()),
        ),
        ("a record of updates with two events each", record(filled(&events))),
        ("a record of one text, too long", record(trip(&[trip_id(&"a".repeat(MIB - 32))]))),
        ("texts of 64 bytes", record(filled(&trip(&[trip_id(&"a".repeat(64))])))),
        ("headers", filled(&header(&[timestamp(NOON)]))),
        ("an unlisted text", delimited(15, vec![0; MIB - 16])),
        ("unlisted numbers", filled(&varint(15, 1))),
        ("groups 16 deep", filled(&groups(15, 16))),
        ("numbers in a group 16 deep", deep),
    ]
}

/// Whether each takes less than a second.
pub fn largest_in_time() -> bool {
    println!("| a message of 1 MiB, judged and indexed | ms | of which the judgement |\n|---|---|---|");
    let mut index = Index::default();
    let mut in_time = true;
    for (name, message) in largest() {
        assert!((MIB - MIB / 16..=MIB).contains(&message.len()));
        let [judged, whole] = best(5, || {
            let message = black_box(&message);
            [millis(|| judge(message)), millis(|| index.leave(b"IDFM", message, NONE))]
        });
        println!("| {name} | {whole:.1} | {judged:.1} |");
        in_time &= whole <= 1e3;
    }
    in_time
}
