//! What is measured: usual messages, sheets and cards, and the worst ones that the questions let in.
use crate::texts::{longest_text, PROSE};
use differential::form::{Form, Text};
use differential::gens::alert_text;
use differential::messages::*;
use differential::panel::{Call, Panel};
use differential::papers::{Alert, AlertSheet, Card, Leg, Middle, Transit, Vehicle, VehicleSheet};
use differential::random::Random;
use differential::samples::NOON;
use std::ops::Range;

pub const FEED: &str = "IDFM";

fn update(random: &mut Random, sequence: i64, at: i64) -> Vec<u8> {
    let late = random.below(300) as i64;
    stop_time_update(&[
        stop_sequence(sequence),
        arrival(&[time(at + late)]),
        departure(&[delay(late), time(at + late + 30)]),
        stop_id(&format!("{:05}", random.below(100_000))),
    ])
}

pub fn trip_entity(random: &mut Random, number: i64) -> Vec<u8> {
    let mut fields = vec![trip(&[
        trip_id(&format!("SNCF:{:08}-{:04x}", number * 7919, random.below(65536))),
        start_date("20260101"),
        route_id(&format!("C{:05}", number % 40)),
        direction_id(number % 2),
    ])];
    fields.extend((1..=20).map(|turn| update(random, turn, NOON + 60 * number + 120 * turn)));
    fields.push(trip_delay(60));
    entity(&[trip_update(&fields)])
}

/// A FULL_DATASET of trips with 20 updates each.
pub fn full(trips: Range<i64>) -> Vec<u8> {
    let mut random = Random::new(7);
    let mut parts = vec![header(&[incrementality(0), timestamp(NOON)])];
    parts.extend(trips.map(|number| trip_entity(&mut random, number)));
    parts.concat()
}

/// A DIFFERENTIAL message of one trip that no other message here has.
pub fn one_trip() -> Vec<u8> {
    [header(&[incrementality(DIFFERENTIAL)]), trip_entity(&mut Random::new(11), 4_000)].concat()
}

pub fn to_feed(feed: &str, message: &[u8]) -> Call {
    Call::Message { feed: feed.into(), message: message.into() }
}

pub fn alerts_call(feed: &str, alerts: Vec<Alert>) -> Call {
    let sheet = AlertSheet { alerts, ..AlertSheet::default() };
    Call::AlertSheet { feed: feed.into(), sheet: sheet.written() }
}

pub fn vehicles_call(feed: &str, vehicles: Vec<Vehicle>, clock: i64) -> Call {
    let sheet = VehicleSheet { vehicles, ..VehicleSheet::default() };
    Call::VehicleSheet { feed: feed.into(), sheet: sheet.written(), clock }
}

pub fn card_call(legs: Vec<Transit>) -> Call {
    let legs = legs.into_iter().map(Leg::Transit).collect();
    let card = Card { departure: NOON, arrival: NOON, legs, ..Card::default() };
    Call::Card { card: card.written() }
}

fn named(id: impl std::fmt::Display) -> Text {
    Text(format!("{FEED}:{id}").into())
}

/// Alerts with usual texts, each on two of the forty routes and three stops.
pub fn usual_alerts(count: usize) -> Vec<Alert> {
    let mut random = Random::new(13);
    let alert = |number: usize| Alert {
        header: Some(Text(format!("Métro {} : trafic perturbé", number % 14 + 1).into())),
        description: Some(Text((PROSE.to_string() + &alert_text(&mut random, 12)).into())),
        cause: Some("TECHNICAL_PROBLEM".into()),
        routes: [number, number + 1].map(|route| named(format!("C{:05}", route % 40))).into(),
        stops: [number, number + 7, number + 9].map(|stop| named(format!("{:05}", stop * 1_999))).into(),
        ..Alert::default()
    };
    (0..count).map(alert).collect()
}

pub fn usual_vehicles(count: usize) -> Vec<Vehicle> {
    let vehicle = |number: usize| Vehicle {
        key: named(format!("V{number:05}")),
        trip: Some(named(format!("SNCF:{:08}-0000", number * 7_919))),
        updated: NOON,
        ..Vehicle::default()
    };
    (0..count).map(vehicle).collect()
}

/// A card of four legs with ten middle stops each, on trips of the feed after these calls.
pub fn usual_card(before: &[Call]) -> Call {
    let mut panel = Panel::default();
    before.iter().for_each(|call| assert_eq!(panel.run(call).expect("an answer").number(), 0));
    let trips = &panel.original.0.feeds[FEED].trips;
    let undated: Vec<_> = trips.iter().filter(|(key, _)| !key.contains('@')).collect();
    let leg = |place: usize| {
        let (key, record) = undated[place * undated.len() / 4];
        let stops: Vec<_> = record.stop_updates.values().map(|update| update.stop_id.clone()).collect();
        let stop = |turn: usize| Text(stops[turn].clone().unwrap_or_default().into());
        let at = NOON + 600 * place as i64;
        Transit {
            mode: "METRO".into(),
            short_name: Text((place + 4).to_string().into()),
            route: Text(record.route_id.clone().unwrap_or_default().into()),
            trip: Text(key.as_str().into()),
            direction: record.direction_id.map(u64::from),
            from: stop(0),
            to: stop(19),
            from_sequence: 1,
            to_sequence: 20,
            scheduled_departure: at,
            scheduled_arrival: at + 500,
            middles: (1..11).map(|turn| middle(stop(turn), at)).collect(),
            ..Transit::default()
        }
    };
    card_call((0..4).map(leg).collect())
}

fn middle(stop: Text, at: i64) -> Middle {
    Middle { stop, scheduled_arrival: at, scheduled_departure: at, ..Middle::default() }
}

/// Of the worst card: the route that all records have, the longest there is.
fn worst_route() -> String {
    "R".repeat(64 - FEED.len() - 1)
}

/// 2,048 records without a trip id on one route, all of another day but the last, which has 128 updates.
pub fn worst_trips() -> Vec<u8> {
    let record = |number: usize| {
        let date = if number == 2_047 { "20260101" } else { "20251231" };
        let count = if number == 2_047 { 128 } else { 1 };
        let updates = (0..count).map(|turn| {
            stop_time_update(&[
                stop_sequence(turn),
                delay_of_arrival(60),
                stop_id(&worst_stop(turn as usize + 64)),
            ])
        });
        let described = trip(&[
            route_id(&worst_route()),
            direction_id(0),
            start_date(date),
            start_time(&format!("{number:08}")),
        ]);
        entity(&[trip_update(&[vec![described], updates.collect()].concat())])
    };
    (0..2_048).flat_map(record).collect()
}

fn delay_of_arrival(seconds: i64) -> Vec<u8> {
    arrival(&[delay(seconds)])
}

/// Stops that begin alike.
fn worst_stop(number: usize) -> String {
    format!("STIF:StopPoint:Q:{number:04}")
}

/// 256 alerts on the route, with the longest and worst texts; a card has no room for more headers than there are.
pub fn worst_alerts() -> Vec<Alert> {
    let (header, description) = longest_text();
    let alert = |number: usize| Alert {
        header: Some(Text(format!("{:02}{}", number % 16, &header[2..]).into())),
        description: Some(Text(description.as_str().into())),
        routes: vec![named(worst_route())],
        ..Alert::default()
    };
    (0..256).map(alert).collect()
}

/// 16 legs with 64 middle stops each, their trips found by the route alone.
pub fn worst_card() -> Call {
    let names = ["5", "1", "E", "T1", "T13", "B", "14", "C", "7", "T3a", "D", "2", "13", "A", "9", "T9"];
    let leg = |name: &str| Transit {
        mode: "METRO".into(),
        short_name: name.into(),
        route: named(worst_route()),
        trip: named(format!("none-{name}")),
        direction: Some(0),
        from: named(worst_stop(500)),
        to: named(worst_stop(501)),
        from_sequence: 1_000,
        to_sequence: 1_001,
        scheduled_departure: NOON,
        scheduled_arrival: NOON + 3_600,
        middles: (0..64).map(|stop| middle(named(worst_stop(stop + 128)), NOON)).collect(),
        ..Transit::default()
    };
    card_call(names.map(leg).into())
}
