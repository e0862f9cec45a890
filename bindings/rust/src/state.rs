//! What an overlay holds: the suppliers' raw records. docs/LAYOUT.md says it in words.
use crate::card::Transit;
use crate::form::record;
use crate::sheets::{Alert, Vehicle};

record!(
    /// An overlay's state ([`crate::Panel::state`]).
    State first 1 { version: u64, feeds: Vec<Feed> }
);

record!(
    /// A supplier's records, by ascending keys.
    Feed {
        id: String,
        header_timestamp: Option<i64>,
        trip_update_count: u64,
        trips: Vec<Trip>,
        vehicles: Vec<Vehicle>,
        alerts: Vec<Alert>,
    }
);

record!(
    /// A trip's record. Key, route and stop ids stand without the feed's prefix; an empty text is an absent one.
    Trip {
        key: String,
        delay: Option<i64>,
        cancelled: bool,
        start_date: String,
        route: String,
        direction: Option<u64>,
        start_time: String,
        updates: Vec<StopTimeUpdate>,
    }
);

record!(
    /// What the supplier says of one stop.
    StopTimeUpdate {
        sequence: u64,
        stop: String,
        arrival_delay: Option<i64>,
        arrival_time: Option<i64>,
        departure_delay: Option<i64>,
        departure_time: Option<i64>,
        skipped: bool,
    }
);

impl Feed {
    /// The part of this feed with these trip records, and the vehicles and alerts of these trip ids; none where
    /// nothing is in it.
    fn part(&self, records: impl Fn(&Trip) -> bool, names: impl Fn(&String) -> bool) -> Option<Feed> {
        let trips = self.trips.iter().filter(|trip| records(trip));
        let vehicles =
            self.vehicles.iter().filter(|place| names(&place.key) || place.trip.iter().any(&names));
        let alerts = self.alerts.iter().filter(|alert| alert.trips.iter().any(&names));
        let part = Feed {
            id: self.id.clone(),
            header_timestamp: self.header_timestamp,
            trip_update_count: self.trip_update_count,
            trips: trips.cloned().collect(),
            vehicles: vehicles.cloned().collect(),
            alerts: alerts.cloned().collect(),
        };
        (part.trips.len() + part.vehicles.len() + part.alerts.len() > 0).then_some(part)
    }

    /// An id without this feed's prefix.
    fn raw<'a>(&self, id: &'a str) -> &'a str {
        id.strip_prefix(self.id.as_str()).and_then(|rest| rest.strip_prefix(':')).unwrap_or(id)
    }

    fn about(&self, trip: &str) -> Option<Feed> {
        let raw = self.raw(trip);
        let names = |id: &String| id == trip || id == raw;
        self.part(|record| record.key == raw || record.undated_key() == raw, names)
    }
}

impl Trip {
    /// The key without '@' and the date of this record.
    fn undated_key(&self) -> &str {
        let date = Some(self.start_date.as_str()).filter(|date| !date.is_empty());
        date.and_then(|date| self.key.strip_suffix(date)?.strip_suffix('@')).unwrap_or(&self.key)
    }
}

impl State {
    /// The raw records of a trip, which is named with or without its feed's prefix, or by a whole key: its trip
    /// records, its vehicles and the alerts that name it, feed by feed.
    pub fn about(&self, trip: &str) -> State {
        let feeds = self.feeds.iter().filter_map(|feed| feed.about(trip));
        State { version: self.version, feeds: feeds.collect() }
    }

    /// The raw records behind a leg: those of its trip; where there is no trip record, also those of its route, the
    /// first of which for its day and direction counts on a card.
    pub fn behind(&self, leg: &Transit) -> State {
        let about = self.about(&leg.trip);
        let known = about.feeds.iter().any(|feed| !feed.trips.is_empty());
        if known || leg.route.is_empty() {
            return about;
        }
        let names = |id: &String| *id == leg.trip;
        let of_route = |feed: &Feed| feed.part(|record| record.route == feed.raw(&leg.route), names);
        State { version: self.version, feeds: self.feeds.iter().filter_map(of_route).collect() }
    }
}
