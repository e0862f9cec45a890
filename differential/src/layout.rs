//! The overlay's state as its layout writes it: prefixes of the feed are implied, an empty text is an
//! absent one, maps ascend. With question 2's judgement of a buffer, and what a message leaves.
use crate::form::{record, Float, Form, One, Reader, Text};
use crate::host::Original;
use crate::papers::{Alert, AlertSheet, Vehicle, VehicleSheet};
use crate::questions::{self, feed_id, feed_time, id, printable};
use crate::rt::overlay::{AlertRt, FeedRtState, StopTimeRt, TripRt, VehiclePos};

record!(Overlay { first: One, version: u64, feeds: Vec<Feed> });

record!(Feed {
    id: Text,
    timestamp: Option<i64>,
    count: u64,
    trips: Vec<TripEntry>,
    vehicles: Vec<Vehicle>,
    alerts: Vec<Alert>,
});

record!(
    /// A record at the rest of its key, after the feed and ':'.
    TripEntry { rest: Text, trip: Trip }
);

record!(Trip {
    delay: Option<i64>,
    cancelled: bool,
    date: Text,
    route: Text,
    direction: Option<u64>,
    time: Text,
    updates: Vec<UpdateEntry>,
});

record!(UpdateEntry { sequence: u64, update: StopUpdate });

record!(StopUpdate {
    stop: Text,
    arrival_delay: Option<i64>,
    arrival_time: Option<i64>,
    departure_delay: Option<i64>,
    departure_time: Option<i64>,
    skipped: bool,
});

record!(
    /// What a message says and leaves: whether it is DIFFERENTIAL, its header timestamp, the trips.
    Said { differential: bool, timestamp: Option<i64>, trips: Vec<TripEntry> }
);

/// The number of the first no of questions 3 to 6, or what the message says and leaves of the feed.
pub fn said(original: &mut Original, feed: &str, message: &[u8]) -> Result<Said, u8> {
    questions::message(feed.as_bytes(), message)?;
    // A trip that no message here has: it is still there after a DIFFERENTIAL message and no other.
    const MARK: &str = "\n";
    let state = original.feed(feed);
    state.trips.insert(MARK.into(), TripRt::default());
    let kept = state.header_timestamp.take();
    assert!(original.message(feed, message), "prost refuses a message that document 01 takes");
    let state = original.feed(feed);
    let differential = state.trips.remove(MARK).is_some();
    let timestamp = state.header_timestamp;
    state.header_timestamp = timestamp.or(kept);
    Ok(Said { differential, timestamp, trips: trips(feed, state) })
}

pub fn overlay(original: &Original) -> Overlay {
    let feeds = original.0.feeds.iter().map(|(id, state)| Feed {
        id: id.as_str().into(),
        timestamp: state.header_timestamp,
        count: state.trip_update_count as u64,
        trips: trips(id, state),
        vehicles: state.vehicles.iter().map(|(key, place)| vehicle(key, place)).collect(),
        alerts: state.alerts.iter().map(alert).collect(),
    });
    Overlay { first: One, version: original.0.version, feeds: feeds.collect() }
}

fn trips(feed: &str, state: &FeedRtState) -> Vec<TripEntry> {
    let entries = state.trips.iter();
    entries.map(|(key, record)| TripEntry { rest: without(feed, key), trip: trip(feed, record) }).collect()
}

fn without(feed: &str, prefixed: &str) -> Text {
    prefixed[feed.len() + 1..].into()
}

pub fn trip(feed: &str, record: &TripRt) -> Trip {
    let given = |text: &Option<String>| Text::from(text.as_deref().unwrap_or(""));
    Trip {
        delay: record.delay.map(i64::from),
        cancelled: record.canceled,
        date: given(&record.start_date),
        route: record.route_id.as_ref().map_or("".into(), |route| without(feed, route)),
        direction: record.direction_id.map(u64::from),
        time: given(&record.start_time),
        updates: record.stop_updates.values().map(|update| update_entry(feed, update)).collect(),
    }
}

fn update_entry(feed: &str, update: &StopTimeRt) -> UpdateEntry {
    UpdateEntry { sequence: update.stop_sequence.into(), update: stop_update(feed, update) }
}

pub fn stop_update(feed: &str, update: &StopTimeRt) -> StopUpdate {
    StopUpdate {
        stop: update.stop_id.as_ref().map_or("".into(), |stop| without(feed, stop)),
        arrival_delay: update.arrival_delay.map(i64::from),
        arrival_time: update.arrival_time,
        departure_delay: update.departure_delay.map(i64::from),
        departure_time: update.departure_time,
        skipped: update.skipped,
    }
}

pub fn vehicle(key: &str, vehicle: &VehiclePos) -> Vehicle {
    Vehicle {
        key: key.into(),
        trip: vehicle.trip_id.as_deref().map(Text::from),
        latitude: Float(vehicle.lat.to_bits()),
        longitude: Float(vehicle.lon.to_bits()),
        updated: vehicle.updated_at.timestamp(),
    }
}

pub fn alert(alert: &AlertRt) -> Alert {
    let texts = |ids: &[String]| ids.iter().map(|id| Text::from(id.as_str())).collect();
    Alert {
        header: alert.header.as_deref().map(Text::from),
        description: alert.description.as_deref().map(Text::from),
        cause: alert.cause.as_deref().map(Text::from),
        trips: texts(&alert.informed_trip_ids),
        routes: texts(&alert.informed_route_ids),
        stops: texts(&alert.informed_stop_ids),
    }
}

/// Question 2: the state that a buffer holds, with zeros after it; none where it is no overlay.
pub fn held(buffer: &[u8]) -> Option<Overlay> {
    let mut reader = Reader(buffer);
    let overlay = Overlay::read(&mut reader)?;
    (zeros(reader.0) && valid(&overlay)).then_some(overlay)
}

/// Whether all bytes are zero.
pub fn zeros(bytes: &[u8]) -> bool {
    bytes.chunks(ZEROS.len()).all(|chunk| chunk == &ZEROS[..chunk.len()])
}

static ZEROS: [u8; 4_096] = [0; 4_096];

/// The bytes before the zeros at the end.
pub fn used(bytes: &[u8]) -> &[u8] {
    let upto = bytes.chunks(ZEROS.len()).rposition(|chunk| !zeros(chunk)).map_or(0, |chunk| chunk + 1);
    let bytes = &bytes[..bytes.len().min(upto * ZEROS.len())];
    let end = bytes.iter().rposition(|byte| *byte != 0).map_or(0, |last| last + 1);
    &bytes[..end]
}

fn valid(overlay: &Overlay) -> bool {
    let ascending = overlay.feeds.windows(2).all(|pair| pair[0].id < pair[1].id);
    ascending && overlay.feeds.len() <= 4 && overlay.feeds.iter().all(valid_feed)
}

fn valid_feed(feed: &Feed) -> bool {
    // The sheets' own questions, without the length of a sheet.
    let vehicles = VehicleSheet { first: One, vehicles: feed.vehicles.clone() };
    let alerts = AlertSheet { first: One, alerts: feed.alerts.clone() };
    let undated = feed.trips.iter().filter(|entry| !entry.rest.0.contains(&b'@')).count();
    let undated = if feed.id.0.contains(&b'@') { 0 } else { undated };
    feed_id(&feed.id.0)
        && [undated as u64, feed.trips.len() as u64].contains(&feed.count)
        && feed.trips.len() <= 2_048
        && feed.trips.windows(2).all(|pair| pair[0].rest < pair[1].rest)
        && feed.trips.iter().all(|entry| valid_trip(&entry.trip) && valid_key(&feed.id, entry))
        && feed.vehicles.len() <= 1_024
        && questions::vehicles(&vehicles).is_ok()
        && questions::alerts(&alerts).is_ok()
}

fn valid_trip(trip: &Trip) -> bool {
    let delay = |delay: &i64| i32::try_from(*delay).is_ok();
    trip.delay.iter().all(delay)
        && trip.direction.iter().all(|direction| u32::try_from(*direction).is_ok())
        && printable(&trip.date.0, 16)
        && printable(&trip.time.0, 16)
        && id(&trip.route)
        && trip.updates.len() <= 128
        && trip.updates.windows(2).all(|pair| pair[0].sequence < pair[1].sequence)
        && trip.updates.iter().all(|UpdateEntry { sequence, update }| {
            u32::try_from(*sequence).is_ok()
                && id(&update.stop)
                && [update.arrival_delay, update.departure_delay].iter().flatten().all(delay)
                && [update.arrival_time, update.departure_time].iter().flatten().all(|time| feed_time(*time))
        })
}

/// A key that `insert_trip` gives for the record and some raw id.
fn valid_key(feed: &Text, entry: &TripEntry) -> bool {
    let raw = |rest: &[u8]| !rest.is_empty() && printable(rest, 64);
    let rest = entry.rest.0.as_slice();
    let date = &entry.trip.date.0;
    let dated = [b"@", date.as_slice()].concat();
    raw(rest)
        || (!date.is_empty() && rest.strip_suffix(dated.as_slice()).is_some_and(raw))
        || entry.rest == incomplete_rest(feed, &entry.trip)
}

/// What `incomplete_trip_key` gives after the feed and ':'.
pub fn incomplete_rest(feed: &Text, trip: &Trip) -> Text {
    let Trip { date, route, direction, time, .. } = trip;
    let route = if route.0.is_empty() { vec![] } else { [&feed.0, b":".as_slice(), &route.0].concat() };
    let direction = direction.map_or(String::new(), |direction| direction.to_string());
    Text([b"#r=", &*route, b"&d=", direction.as_bytes(), b"&sd=", &date.0, b"&st=", &time.0].concat())
}
