//! Calls about one trip, `f:1` on route `f:R` from stop `f:A` to stop `f:B` (`samples`), so that look-ups hit: what the
//! rules of times and status go by is there or not by chance, and half of the messages have every train in time.
use crate::form::{Form, Text};
use crate::messages::*;
use crate::panel::Call;
use crate::papers::{Alert, Leg, Middle, Transit};
use crate::questions::LONGEST_CARD;
use crate::random::Random;
use crate::samples::{self, alerts_call, message_call, vehicle, vehicles_call, NOON};

/// The stops with their sequences and what is scheduled there; one that no leg begins or ends at.
const CALLED: &[(&str, i64, i64)] = &[("A", 1, NOON), ("B", 5, NOON + 1_500), ("C", 3, NOON + 600)];

pub fn of_a_trip(random: &mut Random) -> Call {
    match random.below(12) {
        0..=4 => message(random),
        5 => alerts_call(random.list(2, alert)),
        6 => vehicles(random),
        _ => card(random),
    }
}

fn message(random: &mut Random) -> Call {
    let in_time = random.once_in(2);
    let mut parts = random.list(1, |random| {
        let kind = random.pick(&[0, DIFFERENTIAL, DIFFERENTIAL]);
        header(&[incrementality(kind), timestamp(NOON)])
    });
    let trips = 1 + random.below(2);
    parts.extend((0..trips).map(|_| update_of_trip(random, in_time)));
    message_call(&parts)
}

fn update_of_trip(random: &mut Random, in_time: bool) -> Vec<u8> {
    let mut of = vec![trip_id(random.pick(&["1", "1", "1", "2"]))];
    of.extend(random.maybe(|random| start_date(random.pick(&["20260101", "20260101", "20260102"]))));
    of.extend(random.maybe(|random| route_id(random.pick(&["R", "R", "5"]))));
    if random.once_in(10) {
        of.push(trip_relationship(CANCELED));
    }
    let mut fields = vec![trip(&of)];
    let late = if in_time { 0 } else { random.pick(&[0, 60, 120]) };
    fields.extend(random.maybe(|_| trip_delay(late)));
    fields.extend(random.list(3, |random| update_of_stop(random, in_time)));
    entity(&[trip_update(&fields)])
}

/// Of a stop by its id and its sequence, by one of them, or by another stop's sequence.
fn update_of_stop(random: &mut Random, in_time: bool) -> Vec<u8> {
    let (stop, sequence, scheduled) = random.pick(CALLED);
    let mut fields = Vec::new();
    match random.below(6) {
        0 => fields.push(stop_id(stop)),
        1 => fields.push(stop_sequence(sequence)),
        2 => fields.extend([stop_id(stop), stop_sequence(random.pick(&[1, 5, 9]))]),
        _ => fields.extend([stop_id(stop), stop_sequence(sequence)]),
    }
    fields.extend(random.maybe(|random| arrival(&event(random, scheduled, in_time))));
    fields.extend(random.maybe(|random| departure(&event(random, scheduled, in_time))));
    if random.once_in(8) {
        fields.push(stop_relationship(SKIPPED));
    }
    stop_time_update(&fields)
}

fn event(random: &mut Random, scheduled: i64, in_time: bool) -> Vec<Vec<u8>> {
    let by = |random: &mut Random| if in_time { 0 } else { random.pick(&[0, 30, -60, 600]) };
    let mut fields = Vec::new();
    fields.extend(random.maybe(|random| delay(by(random))));
    if random.once_in(3) {
        fields.push(time(scheduled + by(random)));
    }
    fields
}

/// Texts at the edges of what is a label: absent, empty, of 120 characters in more bytes, and of one more.
fn said(random: &mut Random) -> Text {
    let letter = random.pick(&["x", "é", "…", "😀"]);
    let text = match random.below(5) {
        0 => String::new(),
        1 => "late".into(),
        2 => letter.repeat(120),
        3 => letter.repeat(121),
        _ => [&"x".repeat(random.below(4)), letter.repeat(random.pick(&[117, 119, 120])).as_str()].concat(),
    };
    Text(text.into())
}

fn alert(random: &mut Random) -> Alert {
    let named = |random: &mut Random, id: &str| random.list(1, |_| Text::from(id));
    Alert {
        header: random.once_in(2).then(|| said(random)),
        description: random.maybe(said),
        cause: None,
        trips: named(random, "f:1"),
        routes: named(random, "f:R"),
        stops: named(random, "f:A"),
    }
}

fn vehicles(random: &mut Random) -> Call {
    let keys = ["f:1", "f:2", "k"];
    let vehicles = keys.map(|key| {
        let trip = random.maybe(|random| random.pick(&["f:1", "f:2"]));
        random.once_in(2).then(|| vehicle(key, trip, NOON + random.pick(&[0, 1, 60])))
    });
    vehicles_call(vehicles.into_iter().flatten().collect(), NOON + random.pick(&[0, 900, 901, 960]))
}

fn card(random: &mut Random) -> Call {
    let legs = (0..1 + random.below(3)).map(|_| match random.below(5) {
        0 => Leg::Walk("".into()),
        _ => Leg::Transit(leg(random)),
    });
    let mut card = samples::card(legs.collect());
    card.headers = random.list(2, |random| said(random));
    Call::Card { card: card.written() }
}

/// A card of nearly as many bytes as a card may have: with times on its legs it may be too long.
pub fn full_card(random: &mut Random) -> Call {
    let leg = Transit {
        payload: Text(vec![b'x'; 750]),
        middles: vec![samples::middle(&"x".repeat(64)); 64],
        ..leg(random)
    };
    let mut legs = vec![Leg::Transit(leg); 10];
    let mut left = LONGEST_CARD - random.below(200) - samples::card(legs.clone()).written().len();
    // A walk has a byte for its kind and two for the length of its payload.
    while left > 3 {
        let payload = (left - 3).min(2_048);
        legs.push(Leg::Walk(Text(vec![b'x'; payload])));
        left -= payload + 3;
    }
    Call::Card { card: samples::card(legs).written() }
}

fn leg(random: &mut Random) -> Transit {
    let sequence =
        |random: &mut Random, own: u64| if random.once_in(4) { random.pick(&[0, 3, 9]) } else { own };
    Transit {
        trip: random.pick(&["f:1", "f:1", "f:1", "f:1@20260101", "f:2", "f:none", "g:1"]).into(),
        route: random.pick(&["f:R", "f:R", "f:5", "g:R"]).into(),
        from_sequence: sequence(random, 1),
        to_sequence: sequence(random, 5),
        cancelled: random.once_in(4),
        realtime_departure: random.once_in(4).then_some(NOON + 7),
        departure_delay: random.once_in(4).then_some(7),
        middles: random.list(2, middle),
        ..samples::leg()
    }
}

fn middle(random: &mut Random) -> Middle {
    samples::middle(random.pick(&["f:C", "f:C", "f:A", "f:D"]))
}
