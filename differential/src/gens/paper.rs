//! Random cards and sheets: those that calls are given, and wild ones over all that the forms can say.
use super::*;
use crate::form::{Float, Form, One, Small, Text};
use crate::papers::{Alert, AlertSheet, Card, Leg, Middle, Transit, Vehicle, VehicleSheet};

fn text(string: String) -> Text {
    Text(string.into())
}

fn float(random: &mut Random) -> Float {
    Float(random.pick(&[
        0,
        f64::to_bits(48.8566),
        f64::to_bits(-0.0),
        0x7ff8_0000_0000_0001,
        0x7ff0_0000_0000_0001,
    ]))
}

pub fn card(random: &mut Random) -> Card {
    Card {
        first: One,
        departure: scheduled(random),
        arrival: scheduled(random),
        duration: delay(random),
        status: Small(random.below(5) as u8),
        headers: random.list(2, |random| text(alert_text(random, 3))),
        legs: random.list(5, |random| match random.below(6) {
            0 => Leg::Walk(text(any(random, STOPS))),
            _ => Leg::Transit(transit(random)),
        }),
    }
}

pub fn transit(random: &mut Random) -> Transit {
    let scheduled_departure = scheduled(random);
    Transit {
        mode: text(any(random, MODES)),
        short_name: text(any(random, SHORT_NAMES)),
        route: text(named(random, ROUTES)),
        trip: text(named(random, TRIPS)),
        direction: random.maybe(|random| random.below(3) as u64),
        from: text(named(random, STOPS)),
        to: text(named(random, STOPS)),
        from_sequence: sequence(random),
        to_sequence: sequence(random),
        scheduled_departure,
        scheduled_arrival: near(random, scheduled_departure).clamp(SCHEDULED_ENDS[0], SCHEDULED_ENDS[1]),
        realtime_departure: random.maybe(feed_time),
        realtime_arrival: random.maybe(feed_time),
        departure_delay: random.maybe(delay),
        arrival_delay: random.maybe(delay),
        cancelled: random.once_in(4),
        latitude: random.maybe(float),
        longitude: random.maybe(float),
        updated: random.maybe(feed_time),
        middles: random.list(3, middle),
        payload: text(alert_text(random, 2)),
    }
}

fn middle(random: &mut Random) -> Middle {
    Middle {
        stop: text(named(random, STOPS)),
        scheduled_arrival: scheduled(random),
        scheduled_departure: scheduled(random),
        realtime_arrival: random.maybe(feed_time),
        realtime_departure: random.maybe(feed_time),
    }
}

pub fn alert_sheet(random: &mut Random) -> AlertSheet {
    AlertSheet { first: One, alerts: random.list(4, alert) }
}

pub fn alert(random: &mut Random) -> Alert {
    let mut ids = |stock: &'static [&str]| random.list(3, |random| text(named(random, stock)));
    let (mut trips, routes, stops) = (ids(TRIPS), ids(ROUTES), ids(STOPS));
    // A trip id with an undated form that a leg has makes any alert a candidate.
    if random.once_in(2) {
        trips.push("f:1@z".into());
    }
    Alert {
        header: random.maybe(|random| text(alert_text(random, 8))),
        description: random.maybe(|random| text(alert_text(random, 24))),
        cause: random.maybe(|random| text(alert_text(random, 1))),
        trips,
        routes,
        stops,
    }
}

pub fn vehicle_sheet(random: &mut Random) -> VehicleSheet {
    let mut vehicles = random.list(4, |random| Vehicle {
        key: text(named(random, TRIPS)),
        trip: random.maybe(|random| text(named(random, TRIPS))),
        latitude: float(random),
        longitude: float(random),
        updated: feed_time(random),
    });
    vehicles.sort_by(|one, other| one.key.cmp(&other.key));
    vehicles.dedup_by(|one, other| one.key == other.key);
    VehicleSheet { first: One, vehicles }
}

/// Any number that the forms hold, short ones as often as long ones.
fn wild_number(random: &mut Random) -> u64 {
    random.bits() >> random.below(64)
}

fn wild_signed(random: &mut Random) -> i64 {
    let number = wild_number(random);
    i64::read(&mut crate::form::Reader(&number.written())).expect("a number is a signed number's form")
}

fn wild_text(random: &mut Random) -> Text {
    Text(random.list(6, |random| random.bits() as u8))
}

fn wild_transit(random: &mut Random) -> Transit {
    let mut optional = || random.maybe(wild_signed);
    let optionals = [optional(), optional(), optional(), optional()];
    Transit {
        mode: wild_text(random),
        direction: random.maybe(wild_number),
        from_sequence: wild_number(random),
        scheduled_departure: wild_signed(random),
        realtime_departure: optionals[0],
        realtime_arrival: optionals[1],
        departure_delay: optionals[2],
        arrival_delay: optionals[3],
        latitude: random.maybe(|random| Float(random.bits())),
        payload: wild_text(random),
        ..transit(random)
    }
}

pub fn wild_card(random: &mut Random) -> Card {
    Card {
        departure: wild_signed(random),
        duration: wild_signed(random),
        headers: random.list(3, wild_text),
        legs: random.list(3, |random| match random.below(3) {
            0 => Leg::Walk(wild_text(random)),
            _ => Leg::Transit(wild_transit(random)),
        }),
        ..card(random)
    }
}

pub fn wild_alert_sheet(random: &mut Random) -> AlertSheet {
    let alerts = random.list(4, |random| Alert { stops: random.list(3, wild_text), ..alert(random) });
    AlertSheet { first: One, alerts }
}

pub fn wild_vehicle_sheet(random: &mut Random) -> VehicleSheet {
    let mut sheet = vehicle_sheet(random);
    for vehicle in &mut sheet.vehicles {
        vehicle.updated = wild_signed(random);
    }
    sheet
}
