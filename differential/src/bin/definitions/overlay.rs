//! Cases of crates calendar and overlay: the date of a leg, look-ups, and which buffers are overlays.
use crate::Cases::{AtRandom, Listed};
use crate::{equation, Definition, Equation};
use differential::form::Form;
use differential::gens::{damaged, history, transit};
use differential::host::{instant, Original};
use differential::layout::{self, held, overlay};
use differential::literal::{list, option, pairs, Literal};
use differential::panel::{Call, Panel};
use differential::papers::Vehicle;
use differential::random::Random;
use differential::routing::journey::service_date_in_tz;
use differential::rt::overlay::RealtimeOverlay;

pub const DEFINITIONS: &[Definition] = &[
    Definition {
        name: "paris_date",
        of: "calendar",
        preamble: "use Rattle.calendar.specs.Paris.{paris_digits}\n",
        cases: Listed(paris_dates),
    },
    Definition { name: "resolve_trip", cases: AtRandom(300, resolve_trip), ..OF_LOOKUP },
    Definition { name: "find_stop_update", cases: AtRandom(200, find_stop_update), ..OF_LOOKUP },
    Definition { name: "vehicle_for_trip", cases: AtRandom(150, vehicle_for_trip), ..OF_LOOKUP },
    Definition {
        name: "state_of_buffer",
        of: "overlay",
        preamble: "use Rattle.overlay.specs.Image.{state_of}\n",
        cases: AtRandom(200, state_of_buffer),
    },
];

/// What the look-ups have in common.
const OF_LOOKUP: Definition = Definition {
    name: "",
    of: "overlay",
    preamble: "\
use Rattle.overlay.specs.Records.{shown}
use Rattle.overlay.specs.Lookup.{resolve_trip_rt, find_stop_update, get_vehicle_for_trip}
",
    cases: Listed(Vec::new),
};

/// Look-ups mostly miss: one miss in so many is a case.
const SELDOM: usize = 32;

/// The date in Paris, as the original writes it.
pub fn date(seconds: i64) -> String {
    service_date_in_tz(instant(seconds), "Europe/Paris").format("%Y%m%d").to_string()
}

/// Midnights in Paris and the last Sundays' changes of every year, each with the second before it, and the
/// ends of what is scheduled.
fn paris_dates() -> Vec<Equation> {
    const FIRST: i64 = 946_684_800;
    const LAST: i64 = 2_145_916_799;
    const DAY: i64 = 86_400;
    let mut seconds = vec![FIRST, LAST];
    for midnight in (FIRST..LAST).step_by(DAY as usize) {
        let date = instant(midnight).format("%d%m").to_string();
        // A change falls on one of the last seven days of its month.
        let change = ["2503", "2603", "2703", "2803", "2903", "3003", "3103"].contains(&date.as_str())
            || ["2510", "2610", "2710", "2810", "2910", "3010", "3110"].contains(&date.as_str());
        let around = [-7_200, -3_600, 3_600];
        if change || ["0101", "2902", "0103"].contains(&date.as_str()) {
            seconds.extend(around.iter().flat_map(|hour| [midnight + hour - 1, midnight + hour]));
        }
    }
    seconds.retain(|second| (FIRST..=LAST).contains(second));
    let case = |second: &i64| equation("paris_digits", &[second.to_string()], date(*second).literal());
    seconds.iter().map(case).collect()
}

/// A state that a few calls leave.
pub fn state(random: &mut Random) -> Original {
    let mut panel = Panel::default();
    for call in history(random, 5) {
        if !matches!(call, Call::Card { .. } | Call::Report { .. }) {
            panel.run(&call);
        }
    }
    panel.original
}

/// The term for what a state shows to look-ups.
fn shown(original: &Original) -> String {
    format!("(shown {})", overlay(original).literal())
}

fn resolve_trip(random: &mut Random) -> Equation {
    let (original, leg) = (state(random), transit(random));
    let (trip, route) = (leg.trip.string(), leg.route.string());
    let departure = instant(leg.scheduled_departure);
    let direction = leg.direction.map(|direction| direction.try_into().unwrap());
    let record = original.0.resolve_trip_rt(None, &trip, &route, direction, departure);
    if record.is_none() && !random.once_in(SELDOM) {
        return resolve_trip(random);
    }
    // The feed that it was found in stands beside the record.
    let by = if original.0.get_trip(&trip).is_some() { &trip } else { &route };
    let feed = RealtimeOverlay::feed_of(by).expect("a feed");
    let right = record.map_or("none".into(), |record| {
        format!("(some {})", pairs(&[feed.literal(), layout::trip(feed, record).literal()]))
    });
    let date = date(leg.scheduled_departure);
    let inputs = [trip.literal(), route.literal(), leg.direction.literal(), date.literal()].join(" ");
    equation("resolve_trip_rt", &[shown(&original), inputs], right)
}

fn find_stop_update(random: &mut Random) -> Equation {
    let (original, leg) = (state(random), transit(random));
    let trips =
        original.0.feeds.iter().flat_map(|(feed, state)| state.trips.values().map(move |trip| (feed, trip)));
    let trips: Vec<_> = trips.collect();
    // A state without trips panics here, and so is no case.
    let (feed, trip) = trips[random.below(trips.len())];
    let sequence: Option<u64> = random.maybe(|_| leg.from_sequence);
    let wanted = sequence.map(|sequence| sequence.try_into().unwrap());
    let answer = trip.find_stop_update(wanted, Some(&leg.from.string()));
    if answer.is_none() && !random.once_in(SELDOM) {
        return find_stop_update(random);
    }
    let right = option(&answer.map(|update| layout::stop_update(feed, update)));
    let inputs = [feed.literal(), sequence.literal(), leg.from.literal(), layout::trip(feed, trip).literal()];
    equation("find_stop_update", &inputs, right)
}

fn vehicle_for_trip(random: &mut Random) -> Equation {
    let original = state(random);
    let trip = transit(random).trip;
    let answer = original.0.get_vehicle_for_trip(&trip.string());
    if answer.is_none() && !random.once_in(SELDOM) {
        return vehicle_for_trip(random);
    }
    let right = answer.map_or("none".into(), |place| {
        let Vehicle { trip, latitude, longitude, updated, .. } = layout::vehicle("", place);
        let place = [trip.literal(), latitude.literal(), longitude.literal(), updated.literal()];
        format!("(some {})", pairs(&place))
    });
    equation("get_vehicle_for_trip", &[shown(&original), trip.literal()], right)
}

fn state_of_buffer(random: &mut Random) -> Equation {
    let whole = overlay(&state(random)).written();
    let mut buffer = if random.once_in(3) { whole } else { damaged(random, whole) };
    buffer.extend(vec![0; random.below(3)]);
    equation("state_of", &[list(&buffer)], option(&held(&buffer)))
}
