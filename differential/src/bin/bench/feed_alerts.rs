//! Alerts straight from messages: a usual message beside prost and the original's `apply_service_alerts`, and the worst
//! messages of 1 MiB alone.
use crate::clock::{best, millis};
use crate::index::filled;
use crate::inputs::{usual_alerts, FEED};
use crate::stack::{depth, STACK};
use differential::feed_alerts::SHEET;
use differential::form::Text;
use differential::host::with_alerts;
use differential::messages::alerts::*;
use differential::messages::{header, incrementality, timestamp};
use differential::papers::Alert;
use differential::port::{feed_alerts, sheet_end};
use differential::rt::decode::apply_service_alerts;
use differential::rt::overlay::FeedRtState;
use differential::samples::NOON;
use differential::wire::{delimited, groups, varint};
use std::hint::black_box;

/// Of the original's time on a usual message, and of any message's in milliseconds, the call takes no more.
const MOST: f64 = 0.5;
const LONGEST: f64 = 100.0;

/// As suppliers send it: an id, a period, cause and effect, each text in two languages, a selector for each id.
fn usual(number: usize, of: &Alert) -> Vec<u8> {
    let raw = |id: &Text| id.string()[FEED.len() + 1..].to_string();
    let said = |given: &Option<Text>| {
        let said = given.as_ref().map(Text::string).unwrap_or_default();
        ["fr", "en"].map(|tongue| translation(&[text(&said), language(tongue)]))
    };
    let period = [varint(1, NOON as u64), varint(2, NOON as u64 + 7_200)].concat();
    let mut fields = vec![delimited(1, period)];
    fields.extend(of.routes.iter().map(|id| informed_entity(&[route_id(&raw(id))])));
    fields.extend(of.stops.iter().map(|id| informed_entity(&[stop_id(&raw(id))])));
    fields.extend([varint(6, 3), varint(7, 2)]);
    fields.extend([header_text(&said(&of.header)), description_text(&said(&of.description))]);
    entity(&[delimited(1, format!("alert-{number}")), alert(&fields)])
}

fn usual_message(alerts: usize) -> Vec<u8> {
    let mut parts = vec![header(&[incrementality(0), timestamp(NOON)])];
    parts.extend(usual_alerts(alerts).iter().enumerate().map(|(number, alert)| usual(number, alert)));
    parts.concat()
}

/// Whether the call takes no more than it may of what prost's reading and the original's function take.
fn usual_in_time() -> bool {
    println!(
        "| alerts message | bytes | sheet | port, ms | original, ms | ratio |\n|---|---|---|---|---|---|"
    );
    [1, 10, 100].into_iter().fold(true, |within, alerts| {
        let message = usual_message(alerts);
        let theirs = with_alerts(&message);
        let mut out = vec![0; SHEET];
        let mut state = FeedRtState::new(FEED);
        let [port, original] = best(300, || {
            let call = || assert_eq!(feed_alerts(FEED.as_bytes(), black_box(&message), &mut out), 0);
            [millis(call), millis(|| apply_service_alerts(FEED, black_box(&theirs), &mut state))]
        });
        assert_eq!(state.alerts.len(), alerts);
        let (length, sheet, ratio) = (message.len(), sheet_end(&out).unwrap_or(0), port / original);
        println!("| of {alerts} alerts | {length} | {sheet} | {port:.3} | {original:.3} | {ratio:.2} |");
        within & (alerts < 100 || ratio <= MOST)
    })
}

/// Messages of 1 MiB: much of each kind of field, with little to write, and as much to write as there may be.
fn largest() -> Vec<(&'static str, Vec<u8>)> {
    let one = |fields: Vec<u8>| entity(&[alert(&[fields])]);
    let shared = |part: Vec<u8>| one(part.repeat(4_060 / part.len())).repeat(256);
    let [trips, routes, stops] = ["T", "R", "S"].map(|letter| letter.repeat(12));
    let ids = informed_entity(&[trip(&[trip_id(&trips)]), route_id(&routes), stop_id(&stops)]).repeat(32);
    let said = |field: fn(&[Vec<u8>]) -> Vec<u8>, length: usize| {
        field(&[translation(&[text(&"é".repeat(length / 2))])])
    };
    let full = one([said(header_text, 512), said(description_text, 2_048), ids].concat());
    vec![
        ("empty entities", filled(&entity(&[]))),
        ("deleted entities", filled(&entity(&[is_deleted(1), alert(&[])]))),
        ("an entity of empty alerts", entity(&[filled(&alert(&[]))])),
        ("an entity of alerts with a selector each", entity(&[filled(&alert(&[informed_entity(&[])]))])),
        ("an alert of empty selectors", one(filled(&informed_entity(&[])))),
        ("an alert of selectors with an empty id", one(filled(&informed_entity(&[stop_id("")])))),
        ("a selector of empty trips", one(informed_entity(&[filled(&trip(&[]))]))),
        ("a selector of stops, the last counts", one(informed_entity(&[filled(&stop_id("S"))]))),
        ("an alert of empty header_texts", one(filled(&header_text(&[])))),
        ("a header_text of empty translations", one(header_text(&[filled(&translation(&[]))]))),
        ("a description_text of translations", one(description_text(&[filled(&translation(&[text("A")]))]))),
        ("a translation of texts", one(header_text(&[translation(&[filled(&text(&"é".repeat(256)))])]))),
        ("256 alerts of empty selectors", shared(informed_entity(&[]))),
        ("256 alerts of selectors with an empty trip", shared(informed_entity(&[trip(&[])]))),
        ("256 alerts of empty texts", shared([header_text(&[]), description_text(&[])].concat())),
        ("256 alerts of all ids and the longest texts", full.repeat(256)),
        ("unlisted numbers in an alert", one(filled(&varint(15, 1)))),
        ("groups 16 deep in an alert", one(filled(&groups(15, 16)))),
    ]
}

/// Whether each takes less than it may.
fn largest_in_time() -> bool {
    println!(
        "\n| a message of 1 MiB, its alerts | bytes | number | ms | bytes of a stack of {} KiB |\n|---|---|---|---|---|",
        STACK >> 10
    );
    let mut out = vec![0; SHEET];
    largest().iter().fold(true, |within, (name, message)| {
        let mut number = 0;
        let [took] = best(5, || {
            out.fill(1);
            [millis(|| number = feed_alerts(b"f", black_box(message), &mut out))]
        });
        let used = depth(|| {
            feed_alerts(b"f", message, &mut out);
        });
        println!("| {name} | {} | {number} | {took:.1} | {used} |", message.len());
        within & (took <= LONGEST)
    })
}

pub fn alerts() -> bool {
    usual_in_time() & largest_in_time()
}
