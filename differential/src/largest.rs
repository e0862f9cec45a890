//! The largest feed: every part as long as questions 5 to 7 let it be.
use crate::form::{Float, Text};
use crate::layout::{incomplete_rest, Feed, StopUpdate, Trip, TripEntry, UpdateEntry};
use crate::papers::{Alert, Vehicle};

/// A text of so many bytes that ends in a number.
fn text(bytes: usize, number: usize) -> Text {
    Text(format!("{number:0bytes$}").into())
}

pub fn feed() -> Feed {
    let id = text(16, 0);
    Feed {
        timestamp: Some(i64::MIN),
        count: 2_048,
        trips: (0..2_048).map(|number| entry(&id, number)).collect(),
        vehicles: (0..1_024).map(vehicle).collect(),
        alerts: vec![alert(); 256],
        id,
    }
}

/// A record without trip id: its key is the longest.
fn entry(feed: &Text, number: usize) -> TripEntry {
    let trip = Trip {
        delay: Some(i32::MIN.into()),
        cancelled: true,
        date: text(16, 0),
        route: text(64, number),
        direction: Some(u32::MAX.into()),
        time: text(16, 0),
        updates: (0..128).map(update).collect(),
    };
    TripEntry { rest: incomplete_rest(feed, &trip), trip }
}

fn update(number: u64) -> UpdateEntry {
    let (delay, time) = (Some(i32::MIN.into()), Some(4_102_444_800));
    let update = StopUpdate {
        stop: text(64, 0),
        arrival_delay: delay,
        arrival_time: time,
        departure_delay: delay,
        departure_time: time,
        skipped: true,
    };
    UpdateEntry { sequence: u64::from(u32::MAX) - 127 + number, update }
}

fn vehicle(number: usize) -> Vehicle {
    let [key, trip] = [text(64, number), text(64, 0)];
    Vehicle { key, trip: Some(trip), latitude: Float(0), longitude: Float(0), updated: 4_102_444_800 }
}

fn alert() -> Alert {
    let ids = vec![text(64, 0); 32];
    Alert {
        header: Some(text(512, 0)),
        description: Some(text(2_048, 0)),
        cause: Some(text(64, 0)),
        trips: ids.clone(),
        routes: ids.clone(),
        stops: ids,
    }
}
