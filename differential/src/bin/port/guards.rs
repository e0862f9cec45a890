//! What the index asks before the message: the working slices' lengths, the old trips, the feed's length.
use differential::form::{Form, Text};
use differential::layout::{Trip, TripEntry, UpdateEntry};
use differential::messages::{header, incrementality, DIFFERENTIAL};
use differential::port::{Index, LENGTHS};

/// How many have another answer.
pub fn run() -> usize {
    let mut answers = Vec::new();
    for (slice, change) in [(0, -1), (0, 1), (1, -1), (1, 1), (2, -1), (2, 1)] {
        let mut lengths = LENGTHS;
        lengths[slice] = lengths[slice].wrapping_add_signed(change);
        answers.push((Index::sized(lengths).leave(b"f", &[], &none()), Err(1)));
    }
    let mut index = Index::default();
    let keeps = header(&[incrementality(DIFFERENTIAL)]);
    let mut old = |old: &[u8], answer| answers.push((index.leave(b"f", &keeps, old), answer));
    old(&trips(&["a", "aa", "b"], 128), Ok(3));
    old(&trips(&["", &"k".repeat(137)], 0), Ok(2));
    old(&trips(&["b", "a"], 0), Ok(2));
    old(&trips(&["a", "a"], 0), Ok(1));
    old(&trips(&["a"], 129), Err(2));
    old(&trips(&[&"k".repeat(138)], 0), Err(2));
    old(&[], Err(2));
    old(&[1], Err(2));
    let mut feed =
        |feed: &[u8], message: &[u8], answer| answers.push((index.leave(feed, message, &none()), answer));
    feed(&[b'f'; 16], &[], Ok(0));
    feed(&[b'f'; 17], &[], Err(5));
    feed(&[b'f'; 17], &[1], Err(4));
    let differ = answers.iter().filter(|(answer, expected)| answer != expected).count();
    println!("port: {} answers to what else is asked, {differ} otherwise", answers.len());
    differ
}

fn none() -> Vec<u8> {
    trips(&[], 0)
}

/// Old trips at these keys, each with so many updates.
fn trips(keys: &[&str], updates: u64) -> Vec<u8> {
    let updates = (0..updates).map(|sequence| UpdateEntry { sequence, ..UpdateEntry::default() });
    let trip = Trip { updates: updates.collect(), ..Trip::default() };
    let entry = |key: &&str| TripEntry { rest: Text::from(*key), trip: trip.clone() };
    keys.iter().map(entry).collect::<Vec<_>>().written()
}
