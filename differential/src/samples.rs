//! Small inputs that tests vary: feed `f`, a leg of trip `f:1` on route `f:R` from stop `f:A` to `f:B`.
use crate::form::{Form, Text};
use crate::messages::{entity, trip, trip_id, trip_update};
use crate::panel::Call;
use crate::papers::{Alert, AlertSheet, Card, Leg, Middle, Transit, Vehicle, VehicleSheet};

/// 12:00 in Paris on 2026-01-01.
pub const NOON: i64 = 1_767_265_200;

pub fn leg() -> Transit {
    Transit {
        mode: "METRO".into(),
        short_name: "5".into(),
        route: "f:R".into(),
        trip: "f:1".into(),
        from: "f:A".into(),
        to: "f:B".into(),
        from_sequence: 1,
        to_sequence: 5,
        scheduled_departure: NOON,
        scheduled_arrival: NOON + 1_500,
        ..Transit::default()
    }
}

pub fn middle(stop: &str) -> Middle {
    let time = NOON + 600;
    Middle { stop: stop.into(), scheduled_arrival: time, scheduled_departure: time, ..Middle::default() }
}

pub fn card(legs: Vec<Leg>) -> Card {
    Card { departure: NOON, arrival: NOON, legs, ..Card::default() }
}

pub fn card_call(card: &Card) -> Call {
    Call::Card { card: card.written() }
}

pub fn leg_call(leg: Transit) -> Call {
    card_call(&card(vec![Leg::Transit(leg)]))
}

pub fn message_call(parts: &[Vec<u8>]) -> Call {
    Call::Message { feed: "f".into(), message: parts.concat() }
}

/// An entity of trip `1` with these fields in its trip update.
pub fn trip_1(fields: &[Vec<u8>]) -> Vec<u8> {
    entity(&[trip_update(&[vec![trip(&[trip_id("1")])], fields.to_vec()].concat())])
}

pub fn alert() -> Alert {
    Alert { header: Some("late".into()), ..Alert::default() }
}

pub fn alerts_call(alerts: Vec<Alert>) -> Call {
    Call::AlertSheet { feed: "f".into(), sheet: AlertSheet { alerts, ..AlertSheet::default() }.written() }
}

pub fn vehicle(key: &str, trip: Option<&str>, updated: i64) -> Vehicle {
    Vehicle { key: key.into(), trip: trip.map(Text::from), updated, ..Vehicle::default() }
}

pub fn vehicles_call(vehicles: Vec<Vehicle>, clock: i64) -> Call {
    let sheet = VehicleSheet { vehicles, ..VehicleSheet::default() };
    Call::VehicleSheet { feed: "f".into(), sheet: sheet.written(), clock }
}

pub fn report_call() -> Call {
    Call::Report { feed: "f".into() }
}
