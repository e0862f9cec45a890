//! What document 01 gives for a call on a state as the layout has it, whoever made that state: a reading that needs no
//! list of calls before it. What a message itself leaves is the original's answer; of a card only the number is said.
use crate::form::{Form, Text};
use crate::host::{Original, Report};
use crate::layout::{said, Feed, Overlay, TripEntry};
use crate::panel::Call;
use crate::papers::{Card, Vehicle, VehicleSheet};
use crate::questions::{self, yes};
use std::collections::BTreeMap;

/// What an accepted call gives; of a card the arriving one.
pub enum Given {
    State(Overlay),
    Report(Report),
    Arrived(Card),
}

/// The number of the first no of questions 3 to 7, the state having room for so many bytes; or what is given. A card
/// is taken to be finished within questions 7 and 8, as small ones are.
pub fn after(old: &Overlay, call: &Call, room: usize) -> Result<Given, u8> {
    let state = match call {
        Call::Fresh => Overlay::default(),
        Call::Message { feed, message } => left(old, feed, message)?,
        Call::AlertSheet { feed, sheet } => {
            let sheet = questions::alert_sheet(feed, sheet)?;
            with(old, feed, |feed| feed.alerts = sheet.alerts)
        }
        Call::VehicleSheet { feed, sheet, clock } => {
            let sheet = questions::vehicle_sheet(feed, sheet, *clock)?;
            let merged = with(old, feed, |feed| merge(feed, sheet, *clock));
            Overlay { version: old.version.wrapping_add(1), ..merged }
        }
        Call::Card { card } => return questions::card(card).map(Given::Arrived),
        Call::Report { feed } => {
            questions::report(feed)?;
            return Ok(Given::Report(report(old, feed)));
        }
    };
    yes(counts(&state) && state.written().len() <= room, 7)?;
    Ok(Given::State(state))
}

/// The state with a feed changed, made first where there is none.
fn with(old: &Overlay, id: &[u8], change: impl FnOnce(&mut Feed)) -> Overlay {
    let mut state = old.clone();
    let place = match state.feeds.binary_search_by(|feed| feed.id.0.as_slice().cmp(id)) {
        Ok(place) => place,
        Err(place) => {
            state.feeds.insert(place, Feed { id: Text(id.into()), ..Feed::default() });
            place
        }
    };
    change(&mut state.feeds[place]);
    state
}

fn left(old: &Overlay, id: &[u8], message: &[u8]) -> Result<Overlay, u8> {
    // A feed id that is no text is none, as the empty one is.
    let name = std::str::from_utf8(id).unwrap_or("");
    let said = said(&mut Original::default(), name, message)?;
    Ok(with(old, id, |feed| {
        if said.differential {
            put(&mut feed.trips, said.trips);
        } else {
            feed.trips = said.trips;
        }
        feed.timestamp = said.timestamp.or(feed.timestamp);
        let dated = |entry: &&TripEntry| id.contains(&b'@') || entry.rest.0.contains(&b'@');
        feed.count = feed.trips.iter().filter(|entry| !dated(entry)).count() as u64;
    }))
}

/// Later records go over those at the same key.
fn put(trips: &mut Vec<TripEntry>, later: Vec<TripEntry>) {
    let entries = std::mem::take(trips).into_iter().chain(later);
    let by_key: BTreeMap<_, _> = entries.map(|entry| (entry.rest, entry.trip)).collect();
    *trips = by_key.into_iter().map(|(rest, trip)| TripEntry { rest, trip }).collect();
}

fn merge(feed: &mut Feed, sheet: VehicleSheet, clock: i64) {
    let vehicles = std::mem::take(&mut feed.vehicles).into_iter().chain(sheet.vehicles);
    let by_key: BTreeMap<_, Vehicle> = vehicles.map(|vehicle| (vehicle.key.clone(), vehicle)).collect();
    feed.vehicles = by_key.into_values().filter(|vehicle| vehicle.updated >= clock - 900).collect();
    feed.count = feed.trips.len() as u64;
}

fn counts(state: &Overlay) -> bool {
    let within = |feed: &Feed| {
        let updates = feed.trips.iter().all(|entry| entry.trip.updates.len() <= 128);
        updates && feed.trips.len() <= 2_048 && feed.vehicles.len() <= 1_024
    };
    state.feeds.len() <= 4 && state.feeds.iter().all(within)
}

fn report(old: &Overlay, id: &[u8]) -> Report {
    let feed = old.feeds.iter().find(|feed| feed.id.0 == id);
    Report {
        version: old.version,
        count: feed.map_or(0, |feed| feed.count),
        timestamp: feed.and_then(|feed| feed.timestamp),
    }
}
