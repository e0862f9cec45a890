//! A list that is answered otherwise, made smaller as long as it is: calls are taken out, then pieces of their inputs.
//! What is left is shown as a script.
use crate::tally::name;
use differential::form::{Form, Text};
use differential::panel::Call;
use differential::papers::{Alert, AlertSheet, Card, Leg, Transit, Vehicle, VehicleSheet};
use differential::tree::{field_end, inner, is_listed, tree, Type, DEEPEST_GROUP};
use differential::turns::{input, Turn};
use differential::wire::{key, number};
use std::time::{Duration, Instant};

/// How long smaller lists are looked for.
const LONGEST: Duration = Duration::from_secs(20);

/// The smallest list found that still differs.
pub fn smallest(mut list: Vec<Turn>, differs: &mut dyn FnMut(&[Turn]) -> bool) -> Vec<Turn> {
    let start = Instant::now();
    loop {
        let tried = smaller_lists(&list).take_while(|_| start.elapsed() < LONGEST);
        let found = tried.into_iter().find(|list| differs(list));
        match found {
            Some(smaller) => list = smaller,
            None => return list,
        }
    }
}

/// The larger pieces are left out first.
fn smaller_lists(list: &[Turn]) -> impl Iterator<Item = Vec<Turn>> + '_ {
    let with = |place: usize, turn: Turn| {
        let mut list = list.to_vec();
        list[place] = turn;
        list
    };
    let pieces = list.iter().enumerate().flat_map(move |(place, turn)| {
        smaller_turns(turn).into_iter().map(move |smaller| with(place, smaller))
    });
    without_stretches(list, list.len()).into_iter().chain(pieces)
}

/// Without one of its halves, quarters and so on, down to `parts` parts.
fn without_stretches<T: Clone>(list: &[T], parts: usize) -> Vec<Vec<T>> {
    let mut lists = Vec::new();
    let mut stretch = list.len();
    while stretch > 0 && list.len() / stretch <= parts {
        for from in (0..list.len()).step_by(stretch) {
            let till = list.len().min(from + stretch);
            lists.push([&list[..from], &list[till..]].concat());
        }
        stretch /= 2;
    }
    lists
}

fn smaller_turns(turn: &Turn) -> Vec<Turn> {
    let mut turns = changed(turn, &[&|turn| turn.wrong = None, &|turn| turn.spoilt = None]);
    turns.extend(changed(turn, &[&|turn| turn.more = None]));
    let inputs = match &turn.call {
        Call::Message { message, .. } => return [turns, smaller_messages(turn, message)].concat(),
        Call::AlertSheet { sheet, .. } => forms(sheet, smaller_alert_sheets),
        Call::VehicleSheet { sheet, .. } => forms(sheet, smaller_vehicle_sheets),
        Call::Card { card } => forms(card, smaller_cards),
        Call::Fresh | Call::Report { .. } => vec![],
    };
    turns.extend(inputs.into_iter().map(|input| with_input(turn, input)));
    turns
}

fn with_input(turn: &Turn, bytes: Vec<u8>) -> Turn {
    let mut turn = turn.clone();
    match &mut turn.call {
        Call::Message { message: input, .. }
        | Call::AlertSheet { sheet: input, .. }
        | Call::VehicleSheet { sheet: input, .. }
        | Call::Card { card: input } => *input = bytes,
        Call::Fresh | Call::Report { .. } => {}
    }
    turn
}

/// Those of the changes that change something.
fn changed<T: Clone + PartialEq>(value: &T, changes: &[&dyn Fn(&mut T)]) -> Vec<T> {
    let change = |change: &&dyn Fn(&mut T)| {
        let mut value = value.clone();
        change(&mut value);
        value
    };
    changes.iter().map(change).filter(|other| other != value).collect()
}

/// Smaller values of the form that the bytes have; where they have none, fewer bytes.
fn forms<T: Form>(bytes: &[u8], smaller: impl Fn(&T) -> Vec<T>) -> Vec<Vec<u8>> {
    match T::of(bytes) {
        Some(value) => smaller(&value).iter().map(Form::written).collect(),
        None => without_stretches(bytes, 256),
    }
}

/// The elements fewer, or one of them smaller.
fn smaller_elements<T: Clone>(list: &[T], smaller: impl Fn(&T) -> Vec<T>) -> Vec<Vec<T>> {
    let mut lists = without_stretches(list, list.len());
    for (place, element) in list.iter().enumerate() {
        for smaller in smaller(element) {
            let mut list = list.to_vec();
            list[place] = smaller;
            lists.push(list);
        }
    }
    lists
}

fn smaller_texts(Text(bytes): &Text) -> Vec<Text> {
    without_stretches(bytes, 8).into_iter().map(Text).collect()
}

fn smaller_alert_sheets(sheet: &AlertSheet) -> Vec<AlertSheet> {
    let lists = smaller_elements(&sheet.alerts, smaller_alerts);
    lists.into_iter().map(|alerts| AlertSheet { alerts, ..sheet.clone() }).collect()
}

fn smaller_alerts(alert: &Alert) -> Vec<Alert> {
    let mut alerts = changed(
        alert,
        &[
            &|alert| alert.header = None,
            &|alert| alert.description = None,
            &|alert| alert.cause = None,
            &|alert| alert.trips.clear(),
            &|alert| alert.routes.clear(),
            &|alert| alert.stops.clear(),
        ],
    );
    for text in alert.description.iter().flat_map(smaller_texts) {
        alerts.push(Alert { description: Some(text), ..alert.clone() });
    }
    for text in alert.header.iter().flat_map(smaller_texts) {
        alerts.push(Alert { header: Some(text), ..alert.clone() });
    }
    for trips in smaller_elements(&alert.trips, |_| vec![]) {
        alerts.push(Alert { trips, ..alert.clone() });
    }
    alerts
}

fn smaller_vehicle_sheets(sheet: &VehicleSheet) -> Vec<VehicleSheet> {
    let without_trip = |vehicle: &Vehicle| changed(vehicle, &[&|vehicle| vehicle.trip = None]);
    let lists = smaller_elements(&sheet.vehicles, without_trip);
    lists.into_iter().map(|vehicles| VehicleSheet { vehicles, ..sheet.clone() }).collect()
}

fn smaller_cards(card: &Card) -> Vec<Card> {
    let mut cards = Vec::new();
    for legs in smaller_elements(&card.legs, smaller_legs) {
        cards.push(Card { legs, ..card.clone() });
    }
    for headers in smaller_elements(&card.headers, smaller_texts) {
        cards.push(Card { headers, ..card.clone() });
    }
    cards
}

fn smaller_legs(leg: &Leg) -> Vec<Leg> {
    match leg {
        Leg::Walk(payload) => smaller_texts(payload).into_iter().map(Leg::Walk).collect(),
        Leg::Transit(leg) => smaller_transits(leg).into_iter().map(Leg::Transit).collect(),
    }
}

fn smaller_transits(leg: &Transit) -> Vec<Transit> {
    let mut legs = changed(
        leg,
        &[
            &|leg| leg.payload = Text::default(),
            &|leg| leg.mode = Text::default(),
            &|leg| leg.short_name = Text::default(),
            &|leg| leg.direction = None,
            &|leg| (leg.latitude, leg.longitude, leg.updated) = (None, None, None),
            &|leg| (leg.realtime_departure, leg.departure_delay) = (None, None),
            &|leg| (leg.realtime_arrival, leg.arrival_delay) = (None, None),
            &|leg| leg.cancelled = false,
        ],
    );
    for middles in smaller_elements(&leg.middles, |_| vec![]) {
        legs.push(Transit { middles, ..leg.clone() });
    }
    for payload in smaller_texts(&leg.payload) {
        legs.push(Transit { payload, ..leg.clone() });
    }
    legs
}

/// Fewer fields; or one less: a listed one in both runs' messages, which have the same, or an unlisted one in one of
/// them.
fn smaller_messages(turn: &Turn, message: &[u8]) -> Vec<Turn> {
    if tree(Type::FeedMessage, message, DEEPEST_GROUP).is_none() {
        return without_stretches(message, 256)
            .into_iter()
            .map(|message| with_input(turn, message))
            .collect();
    }
    let fewer = without_stretches(&fields(message), 64);
    let mut turns: Vec<_> =
        fewer.iter().map(|fields| Turn { more: None, ..with_input(turn, fields.concat()) }).collect();
    for place in 0.. {
        let Some(message) = without_field(message, true, place) else { break };
        let more = turn.more.as_deref().and_then(|more| without_field(more, true, place));
        turns.push(Turn { more, ..with_input(turn, message) });
    }
    for place in 0.. {
        let Some(message) = without_field(message, false, place) else { break };
        turns.push(with_input(turn, message));
    }
    let more = turn.more.as_deref().unwrap_or_default();
    for place in 0.. {
        let Some(more) = without_field(more, false, place) else { break };
        turns.push(Turn { more: Some(more), ..turn.clone() });
    }
    turns
}

/// The fields of a whole message, whatever is inside of them.
fn fields(message: &[u8]) -> Vec<&[u8]> {
    let mut fields = Vec::new();
    let mut at = 0;
    while at < message.len() {
        let end = field_end(message, at).expect("a whole message");
        fields.push(&message[at..end]);
        at = end;
    }
    fields
}

/// A whole message without the field that has this place among its listed, or its unlisted, ones, inner ones behind
/// the one that they are in.
fn without_field(message: &[u8], listed: bool, place: usize) -> Option<Vec<u8>> {
    let mut left = Some(place);
    let smaller = copied(Type::FeedMessage, message, listed, &mut left);
    left.is_none().then_some(smaller)
}

fn copied(kind: Type, bytes: &[u8], listed: bool, left: &mut Option<usize>) -> Vec<u8> {
    let mut out = Vec::new();
    let mut at = 0;
    while at < bytes.len() {
        let end = field_end(bytes, at).expect("a whole message");
        if is_listed(kind, bytes, at) == Some(listed) {
            let is_here = *left == Some(0);
            *left = left.and_then(|left| left.checked_sub(1));
            if is_here {
                at = end;
                continue;
            }
        }
        match inner(kind, bytes, at) {
            Some((field, kind, place)) if left.is_some() => {
                let fields = copied(kind, &bytes[place], listed, left);
                out.extend([key(field, 2), number(fields.len() as u64), fields].concat());
            }
            _ => out.extend(&bytes[at..end]),
        }
        at = end;
    }
    out
}

/// The list as a script: a call in a line, bytes in hexadecimal.
pub fn script(length: usize, list: &[Turn]) -> String {
    let mut text = format!("on a fresh overlay of {length} bytes:\n");
    for turn in list {
        text += &format!("  {}", name(&turn.call));
        match &turn.call {
            Call::Message { feed, .. } | Call::AlertSheet { feed, .. } | Call::Report { feed } => {
                text += &format!(" of feed {}", hex(feed));
            }
            Call::VehicleSheet { feed, clock, .. } => {
                text += &format!(" of feed {} at {clock}", hex(feed));
            }
            Call::Fresh | Call::Card { .. } => {}
        }
        text += &format!(": {}\n", hex(input(&turn.call)));
        if let Some((buffer, by)) = turn.wrong {
            text += &format!("    its buffer {buffer} longer by {by}\n");
        }
        if let Some((place, bits)) = turn.spoilt {
            text += &format!("    byte {place} of the old overlay otherwise by the bits {bits:02x}\n");
        }
        if let Some(more) = turn.more.as_ref().filter(|more| *more != input(&turn.call)) {
            text += &format!("    with fields added: {}\n", hex(more));
        }
    }
    text
}

fn hex(bytes: &[u8]) -> String {
    bytes.iter().map(|byte| format!("{byte:02x}")).collect()
}
