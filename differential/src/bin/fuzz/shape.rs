//! Inputs changed as values, so that they keep their form, or nearly: fields of a message left out, doubled and
//! exchanged at any depth, entries of lists likewise, texts and numbers at the edges of what is let in.
use crate::damage::edge;
use differential::form::{Form, Text};
use differential::layout::Overlay;
use differential::papers::{Alert, AlertSheet, Card, Leg, Transit, VehicleSheet};
use differential::random::Random;
use differential::tree::{field_end, inner, Type};
use differential::wire::delimited;

/// Lengths at which limits of texts end.
const LENGTHS: &[usize] = &[0, 1, 16, 17, 64, 65, 120, 121, 512, 513, 2_048, 2_049];

/// Entries exchanged, doubled or left out.
fn shuffle<T: Clone>(random: &mut Random, list: &mut Vec<T>) {
    let length = list.len();
    if length == 0 {
        return;
    }
    let place = random.below(length);
    match random.below(4) {
        0 => list.swap(place, (place + 1) % length),
        1 => drop(list.remove(place)),
        _ => list.insert(place, list[place].clone()),
    }
}

fn any_text(random: &mut Random, text: &mut Text) {
    let letter = random.pick(&[b'a', b' ', b'~', b':', b'@', 31, 127, 0xe9]);
    match random.below(3) {
        0 => text.0.push(letter),
        1 => text.0.resize(random.pick(LENGTHS), letter),
        _ => text.0 = "é€😀".as_bytes()[..random.below(10)].into(),
    }
}

fn any_signed(random: &mut Random, value: &mut i64) {
    let edges = [0, 946_684_800, 2_145_916_799, 4_102_444_800, -1_200_798_848, 4_293_400_446, 5_494_199_294];
    let ends = [i64::MIN, i64::MAX, i64::from(i32::MIN), i64::from(i32::MAX)];
    let at = if random.once_in(2) { random.pick(&edges) } else { random.pick(&ends) };
    *value = at.wrapping_add(random.pick(&[-1, 0, 0, 1]));
}

/// The fields that a message of a type begins with, and what is left where they break off.
fn fields(bytes: &[u8]) -> (Vec<Vec<u8>>, &[u8]) {
    let (mut fields, mut at) = (Vec::new(), 0);
    while let Some(end) = field_end(bytes, at).filter(|_| at < bytes.len()) {
        fields.push(bytes[at..end].to_vec());
        at = end;
    }
    (fields, &bytes[at..])
}

/// A message with one change among its fields, or in a message inside it.
pub fn message(random: &mut Random, of: Type, bytes: &[u8]) -> Vec<u8> {
    let (mut parts, rest) = fields(bytes);
    let place = random.below(parts.len() + 1);
    let inside = parts.get(place).and_then(|part| Some((inner(of, part, 0)?, part.clone())));
    match inside {
        Some(((number, kind, within), part)) if !random.once_in(4) => {
            parts[place] = delimited(number, message(random, kind, &part[within]));
        }
        _ if random.once_in(4) => {
            let number = (1 + random.below(8)) as u64;
            parts.insert(place, [crate::damage::key(random, number), edge(random)].concat());
        }
        _ => shuffle(random, &mut parts),
    }
    [parts.concat(), rest.into()].concat()
}

fn transit(random: &mut Random, leg: &mut Transit) {
    let Transit { mode, short_name, route, trip, from, to, payload, .. } = leg;
    let place = random.below(7);
    match random.below(8) {
        0 => any_text(random, [mode, short_name, route, trip, from, to, payload][place]),
        1 => shuffle(random, &mut leg.middles),
        2 => leg.direction = Some(random.pick(&[0, 1, 255, 256])),
        3 => leg.from_sequence = random.pick(&[0, 1, u64::from(u32::MAX), 1 << 32]),
        4 => any_signed(random, &mut leg.scheduled_departure),
        5 => any_signed(random, leg.realtime_arrival.get_or_insert(0)),
        6 => any_signed(random, leg.departure_delay.get_or_insert(0)),
        _ => leg.middles.iter_mut().for_each(|middle| any_text(random, &mut middle.stop)),
    }
}

pub fn card(random: &mut Random, bytes: &[u8]) -> Option<Vec<u8>> {
    let mut card = Card::of(bytes)?;
    let Card { departure, arrival, duration, headers, legs, .. } = &mut card;
    let place = random.below(3);
    match random.below(8) {
        0 => any_signed(random, [departure, arrival, duration][place]),
        1 => shuffle(random, headers),
        2 => headers.iter_mut().for_each(|header| any_text(random, header)),
        3 => shuffle(random, legs),
        _ => {
            let place = random.below(legs.len() + 1);
            match legs.get_mut(place) {
                Some(Leg::Transit(leg)) => transit(random, leg),
                Some(Leg::Walk(payload)) => any_text(random, payload),
                None => headers.push("late".into()),
            }
        }
    }
    Some(card.written())
}

pub fn alert_sheet(random: &mut Random, bytes: &[u8]) -> Option<Vec<u8>> {
    let mut sheet = AlertSheet::of(bytes)?;
    let place = random.below(sheet.alerts.len() + 1);
    let Some(alert) = sheet.alerts.get_mut(place) else {
        shuffle(random, &mut sheet.alerts);
        return Some(sheet.written());
    };
    let Alert { header, description, cause, trips, routes, stops } = alert;
    let place = random.below(3);
    match random.below(3) {
        0 => any_text(random, [header, description, cause][place].get_or_insert_default()),
        1 => shuffle(random, [trips, routes, stops][place]),
        _ => [trips, routes, stops][place].iter_mut().for_each(|id| any_text(random, id)),
    }
    Some(sheet.written())
}

pub fn vehicle_sheet(random: &mut Random, bytes: &[u8]) -> Option<Vec<u8>> {
    let mut sheet = VehicleSheet::of(bytes)?;
    let place = random.below(sheet.vehicles.len() + 1);
    match (sheet.vehicles.get_mut(place), random.below(3)) {
        (Some(vehicle), 0) => any_text(random, &mut vehicle.key),
        (Some(vehicle), 1) => any_text(random, vehicle.trip.get_or_insert_default()),
        (Some(vehicle), _) => any_signed(random, &mut vehicle.updated),
        (None, _) => shuffle(random, &mut sheet.vehicles),
    }
    if random.once_in(2) {
        sheet.vehicles.sort_by(|one, other| one.key.cmp(&other.key));
    }
    Some(sheet.written())
}

/// A state with one change, which may leave it a state.
pub fn state(random: &mut Random, mut state: Overlay) -> Vec<u8> {
    if random.once_in(4) {
        shuffle(random, &mut state.feeds);
        return state.written();
    }
    let place = random.below(state.feeds.len() + 1);
    let Some(feed) = state.feeds.get_mut(place) else {
        state.version = random.bits() >> random.below(64);
        return state.written();
    };
    match random.below(7) {
        0 => shuffle(random, &mut feed.trips),
        1 => shuffle(random, &mut feed.vehicles),
        2 => shuffle(random, &mut feed.alerts),
        3 => feed.count = random.pick(&[feed.count + 1, feed.trips.len() as u64, 0]),
        4 => feed.trips.iter_mut().for_each(|entry| shuffle(random, &mut entry.trip.updates)),
        5 => feed.trips.iter_mut().take(1).for_each(|entry| any_text(random, &mut entry.rest)),
        _ => feed.vehicles.iter_mut().take(1).for_each(|vehicle| any_signed(random, &mut vehicle.updated)),
    }
    state.written()
}
