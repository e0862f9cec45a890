//! The original at work: cards and sheets become its own types and back, and what its excluded
//! callers do (make a feed, hand over alerts and vehicles) is done here. Nothing here decides an answer.
//! Inputs have passed questions 3 to 6.
use crate::form::{Float, One, Small, Text};
use crate::papers::{Alert, AlertSheet, Card, Leg, Middle, Transit, VehicleSheet, STATUSES};
use crate::routing::journey::{
    self, enrich_with_realtime, IntermediateStop, Journey, StopRef, TransitLegData,
};
use crate::rt::decode::{apply_service_alerts, apply_trip_updates, decode_feed_message};
use crate::rt::overlay::{AlertRt, FeedRtState, RealtimeOverlay, VehiclePos};
use crate::tree::{field_end, inner, Type};
use crate::wire::delimited;
use chrono::{DateTime, TimeZone, Utc};

#[derive(Clone, Default)]
pub struct Original(pub RealtimeOverlay);

/// What a report call gives.
#[derive(Clone, Debug, PartialEq)]
pub struct Report {
    pub version: u64,
    pub count: u64,
    pub timestamp: Option<i64>,
}

impl Report {
    /// 25 bytes, numbers low byte first: version, count, whether there is a timestamp, the timestamp.
    pub fn written(&self) -> Vec<u8> {
        let timestamp = self.timestamp.unwrap_or(0);
        let [version, count, timestamp] =
            [self.version, self.count, timestamp.cast_unsigned()].map(u64::to_le_bytes);
        [version.as_slice(), &count, &[u8::from(self.timestamp.is_some())], &timestamp].concat()
    }
}

impl Original {
    pub fn feed(&mut self, id: &str) -> &mut FeedRtState {
        self.0.feeds.entry(id.into()).or_insert_with(|| FeedRtState::new(id))
    }

    /// False where prost refuses the bytes; then nothing changes.
    pub fn message(&mut self, feed: &str, message: &[u8]) -> bool {
        let whole = decode_feed_message(message).is_ok();
        if whole {
            apply_trip_updates(feed, message, self.feed(feed));
        }
        whole
    }

    /// A message's alerts, as the original reads them; false where prost refuses the bytes.
    pub fn service_alerts(&mut self, feed: &str, message: &[u8]) -> bool {
        let message = with_alerts(message);
        let whole = decode_feed_message(&message).is_ok();
        apply_service_alerts(feed, &message, self.feed(feed));
        whole
    }

    pub fn alert_sheet(&mut self, feed: &str, sheet: &AlertSheet) {
        let state = self.feed(feed);
        state.alerts = sheet.alerts.iter().map(alert).collect();
        state.rebuild_alert_index();
    }

    pub fn vehicle_sheet(&mut self, feed: &str, sheet: &VehicleSheet, clock: i64) {
        chrono::given_clock::set(clock);
        let mut delta = FeedRtState::new(feed);
        for entry in &sheet.vehicles {
            let vehicle = VehiclePos {
                trip_id: entry.trip.as_ref().map(Text::string),
                lat: f64::from_bits(entry.latitude.0),
                lon: f64::from_bits(entry.longitude.0),
                updated_at: instant(entry.updated),
                bearing: None,
                speed: None,
                current_stop_id: None,
                label: None,
                vehicle_id: None,
                license_plate: None,
                occupancy: None,
                current_status: None,
                current_stop_sequence: None,
                congestion: None,
                occupancy_percentage: None,
            };
            delta.vehicles.insert(entry.key.string(), vehicle);
        }
        self.0.merge_feed_delta(feed, delta);
    }

    pub fn card(&self, card: &Card) -> Card {
        finished(card, enrich_with_realtime(arriving(card), &self.0, None))
    }

    pub fn report(&self, feed: &str) -> Report {
        let state = self.0.feeds.get(feed);
        Report {
            version: self.0.version,
            count: state.map_or(0, |state| state.trip_update_count as u64),
            timestamp: state.and_then(|state| state.header_timestamp),
        }
    }
}

/// A whole message with its alerts at the number that the original's schema has them at (`schema/`).
pub fn with_alerts(message: &[u8]) -> Vec<u8> {
    let entities = |field: u64, bytes: &[u8]| {
        delimited(field, each_inner(Type::AlertEntity, bytes, |_, alert| delimited(500_000_005, alert)))
    };
    each_inner(Type::AlertMessage, message, entities)
}

/// The fields of a message, each listed message among them written anew.
fn each_inner(of: Type, bytes: &[u8], anew: impl Fn(u64, &[u8]) -> Vec<u8>) -> Vec<u8> {
    let (mut out, mut at) = (Vec::new(), 0);
    while let Some(end) = field_end(bytes, at).filter(|_| at < bytes.len()) {
        match inner(of, bytes, at) {
            Some((field, _, place)) => out.extend(anew(field, &bytes[place])),
            None => out.extend(&bytes[at..end]),
        }
        at = end;
    }
    out
}

pub fn instant(seconds: i64) -> DateTime<Utc> {
    Utc.timestamp_opt(seconds, 0).unwrap()
}

pub fn alert(alert: &Alert) -> AlertRt {
    let strings = |texts: &[Text]| texts.iter().map(Text::string).collect();
    AlertRt {
        header: alert.header.as_ref().map(Text::string),
        description: alert.description.as_ref().map(Text::string),
        cause: alert.cause.as_ref().map(Text::string),
        informed_trip_ids: strings(&alert.trips),
        informed_route_ids: strings(&alert.routes),
        informed_stop_ids: strings(&alert.stops),
        id: String::new(),
        severity: String::new(),
        effect: None,
        url: None,
        active_start: None,
        active_end: None,
        active_periods: Vec::new(),
        header_translations: Vec::new(),
    }
}

pub fn arriving(card: &Card) -> Journey {
    Journey {
        departure: instant(card.departure),
        arrival: instant(card.arrival),
        duration_s: card.duration,
        realtime_status: STATUSES[card.status.0 as usize].into(),
        alert_headers: card.headers.iter().map(Text::string).collect(),
        legs: card.legs.iter().map(arriving_leg).collect(),
        id: String::new(),
        transfers: 0,
        walk_distance_m: 0.0,
        fare_amount: None,
        fare_currency: None,
        fare_note: None,
    }
}

fn arriving_leg(leg: &Leg) -> journey::Leg {
    match leg {
        Leg::Walk(_) => journey::Leg::Walk(journey::WalkLegData {
            mode: String::new(),
            from_name: String::new(),
            to_name: String::new(),
            from_stop_id: None,
            to_stop_id: None,
            distance_m: 0.0,
            duration_s: 0,
            from_lat: None,
            from_lon: None,
            to_lat: None,
            to_lon: None,
            geometry: Vec::new(),
        }),
        Leg::Transit(leg) => journey::Leg::Transit(arriving_transit(leg)),
    }
}

fn arriving_transit(leg: &Transit) -> TransitLegData {
    TransitLegData {
        mode: leg.mode.string(),
        route_short_name: leg.short_name.string(),
        route_id: leg.route.string(),
        trip_id: leg.trip.string(),
        direction_id: leg.direction.map(|direction| direction.try_into().unwrap()),
        from: stop(&leg.from),
        to: stop(&leg.to),
        from_stop_sequence: leg.from_sequence.try_into().unwrap(),
        to_stop_sequence: leg.to_sequence.try_into().unwrap(),
        scheduled_departure: instant(leg.scheduled_departure),
        scheduled_arrival: instant(leg.scheduled_arrival),
        realtime_departure: leg.realtime_departure.map(instant),
        realtime_arrival: leg.realtime_arrival.map(instant),
        delay_departure_s: leg.departure_delay.map(|delay| delay.try_into().unwrap()),
        delay_arrival_s: leg.arrival_delay.map(|delay| delay.try_into().unwrap()),
        canceled: leg.cancelled,
        vehicle_lat: leg.latitude.map(|float| f64::from_bits(float.0)),
        vehicle_lon: leg.longitude.map(|float| f64::from_bits(float.0)),
        vehicle_updated_at: leg.updated.map(instant),
        intermediate_stops: leg.middles.iter().map(arriving_middle).collect(),
        route_long_name: String::new(),
        agency_name: None,
        trip_short_name: None,
        headsign: None,
        route_color: None,
        route_text_color: None,
        stop_headsign: None,
        wheelchair: 0,
        bikes_allowed: 0,
        geometry: Vec::new(),
        same_vehicle: false,
    }
}

fn arriving_middle(middle: &Middle) -> IntermediateStop {
    IntermediateStop {
        stop: stop(&middle.stop),
        scheduled_arrival: instant(middle.scheduled_arrival),
        scheduled_departure: instant(middle.scheduled_departure),
        realtime_arrival: middle.realtime_arrival.map(instant),
        realtime_departure: middle.realtime_departure.map(instant),
    }
}

fn stop(id: &Text) -> StopRef {
    StopRef { stop_id: id.string(), name: String::new(), lat: None, lon: None, platform: None }
}

/// The original's journey as a card; the payloads, which it does not have, are the arriving card's.
fn finished(card: &Card, journey: Journey) -> Card {
    let status = STATUSES.iter().position(|name| *name == journey.realtime_status).unwrap();
    Card {
        first: One,
        departure: journey.departure.timestamp(),
        arrival: journey.arrival.timestamp(),
        duration: journey.duration_s,
        status: Small(status as u8),
        headers: journey.alert_headers.iter().map(|header| header.as_str().into()).collect(),
        legs: card.legs.iter().zip(&journey.legs).map(finished_leg).collect(),
    }
}

fn finished_leg((arrived, leg): (&Leg, &journey::Leg)) -> Leg {
    let seconds = |time: DateTime<Utc>| time.timestamp();
    match (arrived, leg) {
        (Leg::Walk(payload), journey::Leg::Walk(_)) => Leg::Walk(payload.clone()),
        (Leg::Transit(arrived), journey::Leg::Transit(leg)) => Leg::Transit(Transit {
            mode: leg.mode.as_str().into(),
            short_name: leg.route_short_name.as_str().into(),
            route: leg.route_id.as_str().into(),
            trip: leg.trip_id.as_str().into(),
            direction: leg.direction_id.map(u64::from),
            from: leg.from.stop_id.as_str().into(),
            to: leg.to.stop_id.as_str().into(),
            from_sequence: leg.from_stop_sequence.into(),
            to_sequence: leg.to_stop_sequence.into(),
            scheduled_departure: seconds(leg.scheduled_departure),
            scheduled_arrival: seconds(leg.scheduled_arrival),
            realtime_departure: leg.realtime_departure.map(seconds),
            realtime_arrival: leg.realtime_arrival.map(seconds),
            departure_delay: leg.delay_departure_s.map(i64::from),
            arrival_delay: leg.delay_arrival_s.map(i64::from),
            cancelled: leg.canceled,
            latitude: leg.vehicle_lat.map(|float| Float(float.to_bits())),
            longitude: leg.vehicle_lon.map(|float| Float(float.to_bits())),
            updated: leg.vehicle_updated_at.map(seconds),
            middles: leg.intermediate_stops.iter().map(finished_middle).collect(),
            payload: arrived.payload.clone(),
        }),
        _ => unreachable!("legs keep their kind and place"),
    }
}

fn finished_middle(middle: &IntermediateStop) -> Middle {
    Middle {
        stop: middle.stop.stop_id.as_str().into(),
        scheduled_arrival: middle.scheduled_arrival.timestamp(),
        scheduled_departure: middle.scheduled_departure.timestamp(),
        realtime_arrival: middle.realtime_arrival.map(|time| time.timestamp()),
        realtime_departure: middle.realtime_departure.map(|time| time.timestamp()),
    }
}
