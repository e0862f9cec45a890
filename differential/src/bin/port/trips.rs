//! What a message leaves of a feed's trips: the port's index beside `apply_trip_updates`.
use crate::big;
use differential::bounds::bounds;
use differential::form::Form;
use differential::gens::{damaged, message};
use differential::host::Original;
use differential::layout::{said, Said, TripEntry};
use differential::messages::{header as header_field, incrementality, DIFFERENTIAL};
use differential::panel::Call;
use differential::port::{header, judge, Index, Place};
use differential::questions::{self, feed_id, yes};
use differential::random::Random;
use std::collections::BTreeMap;

const RANDOM: usize = 130_000;
const BIG: usize = 400;
const FEEDS: &[&str] = &["f", "f", "f", "g", "a@b", "sixteen_bytes_id"];

/// How many messages the port reads otherwise.
pub fn run(seed: u64) -> usize {
    let mut comparison = Comparison::default();
    comparison.at_bounds();
    comparison.at_random(seed);
    comparison.print();
    comparison.differ
}

#[derive(Default)]
struct Comparison {
    index: Index,
    messages: usize,
    damaged: usize,
    refused: BTreeMap<u8, usize>,
    differential: usize,
    over_old: usize,
    both: usize,
    records: usize,
    updates: usize,
    differ: usize,
    smallest: Option<Case>,
}

struct Case {
    feed: String,
    old: Vec<TripEntry>,
    message: Vec<u8>,
}

impl Comparison {
    /// Each question of a message at its bound and one past it.
    fn at_bounds(&mut self) {
        for calls in bounds().into_iter().flat_map(|bound| [bound.within, bound.past].concat()) {
            let mut original = Original::default();
            for call in calls {
                match call {
                    Call::Message { feed, message } if feed_id(&feed) => {
                        let feed = String::from_utf8(feed).expect("a judged feed id");
                        self.message(&mut original, &feed, message);
                    }
                    _ => break,
                }
            }
        }
    }

    /// Messages two of three of which are damaged, half of them after a whole one.
    fn at_random(&mut self, seed: u64) {
        let mut random = Random::new(seed);
        for turn in 0..RANDOM + BIG {
            let any = if turn < RANDOM { small } else { big::message };
            let feed = random.pick(FEEDS);
            let mut original = Original::default();
            if random.once_in(2) {
                let earlier = any(&mut random);
                self.message(&mut original, feed, earlier);
            }
            let message = any(&mut random);
            let whole = random.once_in(3);
            self.damaged += usize::from(!whole);
            let message = if whole { message } else { damaged(&mut random, message) };
            self.message(&mut original, feed, message);
        }
    }

    /// A message after those that the original has had.
    fn message(&mut self, original: &mut Original, feed: &str, message: Vec<u8>) {
        let old = original.0.feeds.contains_key(feed).then(|| trips(original, feed));
        let case = Case { feed: feed.into(), old: old.unwrap_or_default(), message };
        let expected = accepted(original, &case);
        self.messages += 1;
        match &expected {
            Ok(said) => self.count(&case, said),
            Err(number) => *self.refused.entry(*number).or_insert(0) += 1,
        }
        if !agrees(&mut self.index, &case, &expected) {
            self.differ += 1;
            let shorter = |other: &Case| case.message.len() < other.message.len();
            if self.smallest.as_ref().is_none_or(shorter) {
                self.smallest = Some(case);
            }
        }
    }

    fn count(&mut self, case: &Case, said: &Said) {
        self.differential += usize::from(said.differential);
        self.over_old += usize::from(!case.old.is_empty());
        self.both += usize::from(said.differential && !case.old.is_empty());
        self.records += said.trips.len();
        self.updates += said.trips.iter().map(|entry| entry.trip.updates.len()).sum::<usize>();
    }

    fn print(&self) {
        let Comparison { messages, damaged, refused, differential, over_old, both, .. } = self;
        let Comparison { records, updates, differ, .. } = self;
        let accepted = messages - refused.values().sum::<usize>();
        println!(
            "port: {messages} messages, {damaged} of them damaged: {accepted} accepted, refused {refused:?}; of the accepted ones \
             {differential} DIFFERENTIAL, {over_old} over old trips, {both} both; {records} records with \
             {updates} updates left; {differ} otherwise"
        );
        if let Some(Case { feed, old, message }) = &self.smallest {
            println!(
                "the shortest: feed {feed}, old trips {}, message {}",
                hex(&old.written()),
                hex(message)
            );
        }
    }
}

fn small(random: &mut Random) -> Vec<u8> {
    let mut message = message(random);
    if random.once_in(3) {
        message.extend(header_field(&[incrementality(DIFFERENTIAL)]));
    }
    message
}

/// What a feed holds: a DIFFERENTIAL message that has no entity leaves it.
fn trips(original: &Original, feed: &str) -> Vec<TripEntry> {
    let message = header_field(&[incrementality(DIFFERENTIAL)]);
    said(&mut original.clone(), feed, &message).expect("a message").trips
}

/// What the message says and leaves, or the number of the first no of questions 3 to 7, which leaves all as it was.
fn accepted(original: &mut Original, Case { feed, message, .. }: &Case) -> Result<Said, u8> {
    let mut after = original.clone();
    let said = said(&mut after, feed, message)?;
    let updates = said.trips.iter().all(|entry| entry.trip.updates.len() <= 128);
    yes(updates && said.trips.len() <= 2_048, 7)?;
    *original = after;
    Ok(said)
}

fn agrees(index: &mut Index, Case { feed, old, message }: &Case, expected: &Result<Said, u8>) -> bool {
    let old = old.written();
    let number = questions::message(feed.as_bytes(), message).err().unwrap_or(0);
    let judged = number == 3 || judge(message) == u32::from(number);
    judged
        && match (expected, index.leave(feed.as_bytes(), message, &old)) {
            (Err(number), found) => found == Err(usize::from(*number)),
            (Ok(_), Err(_)) => false,
            (Ok(said), Ok(count)) => {
                header(message) == (said.differential, said.timestamp)
                    && count == said.trips.len()
                    && (0..count).all(|rank| is_left(index, rank, &said.trips[rank], message, &old))
            }
        }
}

/// Whether the trip at a rank of the index is a given one.
fn is_left(index: &mut Index, rank: usize, entry: &TripEntry, message: &[u8], old: &[u8]) -> bool {
    match index.at(rank) {
        Some((key, _)) if key != entry.rest.0 => false,
        Some((_, Place::Message(place))) => {
            message.get(place).is_some_and(|entity| index.is_trip(entity, &entry.trip))
        }
        Some((_, Place::Old(place))) => old.get(place).is_some_and(|trip| trip == entry.trip.written()),
        None => false,
    }
}

fn hex(bytes: &[u8]) -> String {
    bytes.iter().map(|byte| format!("{byte:02x}")).collect()
}
