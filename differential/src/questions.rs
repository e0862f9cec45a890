//! Document 01's "Questions before work", 3 to 6 and the counts of 7 that an input alone decides: the
//! number of the first no, or the input read. The original has no counterpart of these.
use crate::form::{Form, Text};
use crate::papers::{Alert, AlertSheet, Card, Leg, Transit, VehicleSheet};
use crate::tree::{tree, Field, Listed, Type, Value, DEEPEST_GROUP};

pub const LONGEST_INPUT: usize = 1_048_576;
pub const LONGEST_CARD: usize = 65_536;

pub fn message(feed: &[u8], message: &[u8]) -> Result<Vec<Field>, u8> {
    yes(message.len() <= LONGEST_INPUT, 3)?;
    let fields = tree(Type::FeedMessage, message, DEEPEST_GROUP).ok_or(4)?;
    yes(feed_id(feed) && every(&fields, &text_within), 5)?;
    yes(every(&fields, &time_within), 6)?;
    Ok(fields)
}

/// Questions 3 to 5 of a message whose alerts are wanted (document 02, C-11). An id is judged with the feed's prefix,
/// which an empty one doesn't get.
pub fn alert_message(feed: &[u8], message: &[u8]) -> Result<Vec<Field>, u8> {
    yes(message.len() <= LONGEST_INPUT, 3)?;
    let fields = tree(Type::AlertMessage, message, DEEPEST_GROUP).ok_or(4)?;
    let prefixed = |text: &[u8]| if text.is_empty() { 0 } else { feed.len() + 1 + text.len() };
    let text_within = |field: &Field| match (field.listed, &field.value) {
        (Listed::Prefixed, Value::Text(text)) => printable(text, 64) && prefixed(text) <= 64,
        (Listed::Header, Value::Text(text)) => is_utf8(text, 512),
        (Listed::Description, Value::Text(text)) => is_utf8(text, 2_048),
        _ => true,
    };
    yes(feed_id(feed) && every(&fields, &text_within), 5)?;
    Ok(fields)
}

pub fn alert_sheet(feed: &[u8], sheet: &[u8]) -> Result<AlertSheet, u8> {
    yes(sheet.len() <= LONGEST_INPUT, 3)?;
    let sheet = AlertSheet::of(sheet).ok_or(4)?;
    yes(feed_id(feed), 5)?;
    alerts(&sheet)?;
    Ok(sheet)
}

/// Questions 5 to 7 of alerts, on a sheet or in an overlay.
pub fn alerts(sheet: &AlertSheet) -> Result<(), u8> {
    let lists = |alert: &Alert| [alert.trips.clone(), alert.routes.clone(), alert.stops.clone()];
    let texts = sheet.alerts.iter().all(|alert| {
        alert.header.iter().all(|text| utf8(text, 512))
            && alert.description.iter().all(|text| utf8(text, 2_048))
            && alert.cause.iter().all(|text| utf8(text, 64))
            && lists(alert).iter().flatten().all(id)
    });
    yes(texts, 5)?;
    let counts = sheet.alerts.iter().all(|alert| lists(alert).iter().all(|ids| ids.len() <= 32));
    yes(sheet.alerts.len() <= 256 && counts, 7)
}

pub fn vehicle_sheet(feed: &[u8], sheet: &[u8], clock: i64) -> Result<VehicleSheet, u8> {
    yes(sheet.len() <= LONGEST_INPUT, 3)?;
    let sheet = VehicleSheet::of(sheet).filter(VehicleSheet::ascending).ok_or(4)?;
    yes(feed_id(feed), 5)?;
    vehicles(&sheet)?;
    yes(feed_time(clock), 6)?;
    Ok(sheet)
}

/// Questions 4 to 6 of vehicles, on a sheet or in an overlay.
pub fn vehicles(sheet: &VehicleSheet) -> Result<(), u8> {
    yes(sheet.ascending(), 4)?;
    yes(sheet.vehicles.iter().all(|vehicle| id(&vehicle.key) && vehicle.trip.iter().all(id)), 5)?;
    yes(sheet.vehicles.iter().all(|vehicle| feed_time(vehicle.updated)), 6)
}

pub fn card(card: &[u8]) -> Result<Card, u8> {
    yes(card.len() <= LONGEST_CARD, 3)?;
    let card = Card::of(card).ok_or(4)?;
    let transits =
        || card.legs.iter().filter_map(|leg| if let Leg::Transit(leg) = leg { Some(leg) } else { None });
    let payloads = card.legs.iter().all(|leg| match leg {
        Leg::Walk(payload) => payload.0.len() <= 2_048,
        Leg::Transit(leg) => leg.payload.0.len() <= 2_048,
    });
    let headers = card.headers.iter().all(|header| utf8(header, 512));
    yes(payloads && headers && transits().all(leg_texts), 5)?;
    let duration = (-5_494_199_294..=5_494_199_294).contains(&card.duration);
    let times = card_time(card.departure) && card_time(card.arrival);
    yes(times && duration && transits().all(leg_numbers), 6)?;
    let middles = transits().all(|leg| leg.middles.len() <= 64);
    yes(card.legs.len() <= 16 && card.headers.len() <= 1_024 && middles, 7)?;
    Ok(card)
}

pub fn report(feed: &[u8]) -> Result<(), u8> {
    yes(feed_id(feed), 5)
}

pub fn yes(holds: bool, number: u8) -> Result<(), u8> {
    if holds {
        Ok(())
    } else {
        Err(number)
    }
}

pub fn feed_id(feed: &[u8]) -> bool {
    (1..=16).contains(&feed.len()) && feed.iter().all(|byte| (33..=126).contains(byte) && *byte != b':')
}

pub fn printable(text: &[u8], longest: usize) -> bool {
    text.len() <= longest && text.iter().all(|byte| (32..=126).contains(byte))
}

pub fn id(text: &Text) -> bool {
    printable(&text.0, 64)
}

pub fn utf8(text: &Text, longest: usize) -> bool {
    is_utf8(&text.0, longest)
}

fn is_utf8(text: &[u8], longest: usize) -> bool {
    text.len() <= longest && std::str::from_utf8(text).is_ok()
}

/// A feed's, a vehicle sheet's or the clock's time.
pub fn feed_time(time: i64) -> bool {
    (0..=4_102_444_800).contains(&time)
}

fn scheduled(time: i64) -> bool {
    (946_684_800..=2_145_916_799).contains(&time)
}

fn card_time(time: i64) -> bool {
    (-1_200_798_848..=4_293_400_446).contains(&time)
}

/// Of every listed value, overwritten or passed over included.
pub fn every(fields: &[Field], holds: &dyn Fn(&Field) -> bool) -> bool {
    fields.iter().all(|field| match &field.value {
        Value::Message(inner) => every(inner, holds),
        _ => holds(field),
    })
}

fn text_within(field: &Field) -> bool {
    match (field.listed, &field.value) {
        (Listed::Id, Value::Text(text)) => printable(text, 64),
        (Listed::Short, Value::Text(text)) => printable(text, 16),
        _ => true,
    }
}

fn time_within(field: &Field) -> bool {
    match (field.listed, &field.value) {
        (Listed::Time, Value::Number(time)) => feed_time(time.cast_signed()),
        _ => true,
    }
}

fn leg_texts(leg: &Transit) -> bool {
    let texts = [&leg.mode, &leg.short_name, &leg.route, &leg.trip, &leg.from, &leg.to];
    texts.iter().all(|text| id(text)) && leg.middles.iter().all(|middle| id(&middle.stop))
}

fn leg_numbers(leg: &Transit) -> bool {
    let sequence = |number: u64| u32::try_from(number).is_ok();
    let delay = |delay: &i64| i32::try_from(*delay).is_ok();
    let realtime = |times: [Option<i64>; 2]| times.iter().flatten().all(|time| card_time(*time));
    leg.direction.iter().all(|direction| u8::try_from(*direction).is_ok())
        && sequence(leg.from_sequence)
        && sequence(leg.to_sequence)
        && scheduled(leg.scheduled_departure)
        && scheduled(leg.scheduled_arrival)
        && realtime([leg.realtime_departure, leg.realtime_arrival])
        && [leg.departure_delay, leg.arrival_delay].iter().flatten().all(delay)
        && leg.updated.iter().all(|time| card_time(*time))
        && leg.middles.iter().all(|middle| {
            scheduled(middle.scheduled_arrival)
                && scheduled(middle.scheduled_departure)
                && realtime([middle.realtime_arrival, middle.realtime_departure])
        })
}
