//! Whole calls of the port beside the original, run in turn. Question 2, which the original does not ask, stands apart.
use crate::clock::{best, millis};
use crate::inputs::*;
use differential::host::{arriving, Original};
use differential::panel::{Call, Panel};
use differential::papers::{AlertSheet, VehicleSheet};
use differential::questions;
use differential::routing::journey::enrich_with_realtime;
use differential::rt::decode::apply_trip_updates;
use differential::samples::NOON;
use differential::states::{open, writes, States};
use differential::turns::{input, OVERLAY};
use std::hint::black_box;

const MIB: usize = 1 << 20;
/// Overlays hardly longer than what is in use: passes over zeros are not what the rows are about.
const FEW_TRIPS: usize = MIB;
const MANY_TRIPS: usize = MIB + MIB / 4;

/// Milliseconds of the original for a call: its own functions, and turning values that are read before into its types;
/// of a card back, too.
fn original(state: &Original, call: &Call) -> f64 {
    let mut after = state.clone();
    let text = |feed: &[u8]| String::from_utf8(feed.into()).expect("a feed id");
    match call {
        Call::Fresh => millis(Original::default),
        Call::Message { feed, message } => {
            let feed = text(feed);
            let trips = after.feed(&feed);
            millis(|| apply_trip_updates(&feed, black_box(message), trips))
        }
        Call::AlertSheet { feed, sheet } => {
            let sheet: AlertSheet = questions::alert_sheet(feed, sheet).expect("a sheet");
            millis(|| after.alert_sheet(&text(feed), &sheet))
        }
        Call::VehicleSheet { feed, sheet, clock } => {
            let sheet: VehicleSheet = questions::vehicle_sheet(feed, sheet, *clock).expect("a sheet");
            millis(|| after.vehicle_sheet(&text(feed), &sheet, *clock))
        }
        Call::Card { card } => {
            let card = questions::card(card).expect("a card");
            millis(|| after.card(&card))
        }
        Call::Report { feed } => millis(|| after.report(&text(feed))),
    }
}

/// Milliseconds of the original's `enrich_with_realtime` alone, on a journey of its own.
fn enriching(before: &[Call], card: &Call) -> f64 {
    let mut panel = Panel::default();
    before.iter().for_each(|call| drop(panel.run(call)));
    let card = questions::card(input(card)).expect("a card");
    let [took] = best(100, || {
        let journey = arriving(&card);
        [millis(|| enrich_with_realtime(journey, &panel.original.0, None))]
    });
    took
}

/// Milliseconds of question 2 alone, of the whole call, and of the original's.
struct Took {
    opened: f64,
    whole: f64,
    original: f64,
}

/// A call onto what others leave, over and over: its output is not the next one's old overlay.
fn measured(length: usize, runs: usize, before: &[Call], call: &Call) -> Took {
    let mut states = after(States::of(length), before);
    let mut panel = Panel::default();
    before.iter().for_each(|call| drop(panel.run(call)));
    let [opened, whole, original] = best(runs, || {
        let opened = millis(|| open(black_box(states.overlay())));
        let whole = again(&mut states, call);
        [opened, whole, original(&panel.original, call)]
    });
    let opened = if *call == Call::Fresh { 0.0 } else { opened };
    Took { opened, whole, original }
}

/// Milliseconds of a call that is accepted; the next has the same old overlay.
pub fn again(states: &mut States, call: &Call) -> f64 {
    let took = millis(|| assert_eq!(states.call(black_box(call)), 0));
    if writes(call) {
        states.back();
    }
    took
}

/// Overlays after these calls.
pub fn after(mut states: States, calls: &[Call]) -> States {
    assert_eq!(states.call(&Call::Fresh), 0);
    calls.iter().for_each(|call| assert_eq!(states.call(call), 0));
    states
}

/// The whole call at the published length, on memory of which only what calls wrote was ever written.
fn published(before: &[Call], call: &Call) -> f64 {
    let mut states = after(States::of_panel(OVERLAY), before);
    best(5, || [again(&mut states, call)])[0]
}

/// A row; of another time of the original's where that is what to hold against.
fn row(what: &str, length: usize, runs: usize, before: &[Call], call: &Call, against: Option<f64>) -> Took {
    let took = measured(length, runs, before, call);
    let Took { opened, whole, original } = took;
    let against = against.unwrap_or(original);
    println!(
        "| {what} | {whole:.3} | {against:.3} | {:.2} | {opened:.3} | {:.2} | {:.1} |",
        whole / against,
        (whole - opened).max(0.0) / against,
        published(before, call),
    );
    took
}

fn messages() {
    let [few, many] = [full(0..500), full(0..1_000)].map(|message| to_feed(FEED, &message));
    row("message: FULL, 500 trips with 20 updates, onto none", FEW_TRIPS, 200, &[], &few, None);
    row("the same onto themselves", FEW_TRIPS, 200, &[few.clone()], &few, None);
    let made = row("message: FULL, 1,000 trips with 20 updates, onto none", MANY_TRIPS, 60, &[], &many, None);
    let one = to_feed(FEED, &one_trip());
    let before = [many];
    row("message: DIFFERENTIAL, one trip, onto these 1,000", MANY_TRIPS, 100, &before, &one, None);
    let what = "the same, the original's time that of the message of 1,000";
    row(what, MANY_TRIPS, 100, &before, &one, Some(made.original));
}

/// Alert sheets, vehicle sheets, cards, report and fresh overlay on a state that messages and sheets made.
fn others() {
    let trips = to_feed(FEED, &full(0..500));
    let alerts = alerts_call(FEED, usual_alerts(50));
    let vehicles = vehicles_call(FEED, usual_vehicles(500), NOON);
    let before = [trips, alerts, vehicles];
    row("alert sheet of 50, onto 500 trips", FEW_TRIPS, 100, &before[..1], &before[1], None);
    row("vehicle sheet of 500, onto 500 trips and 50 alerts", FEW_TRIPS, 100, &before[..2], &before[2], None);
    row("the same onto itself", FEW_TRIPS, 100, &before, &before[2], None);
    let card = usual_card(&before);
    row("card: 4 legs, 10 middle stops each; 500 trips, 50 alerts", FEW_TRIPS, 100, &before, &card, None);
    let alone = enriching(&before, &card);
    let what = "the same, the original's `enrich_with_realtime` alone";
    row(what, FEW_TRIPS, 100, &before, &card, Some(alone));
    row("report", FEW_TRIPS, 100, &before, &Call::Report { feed: FEED.into() }, None);
    row("fresh", FEW_TRIPS, 100, &before, &Call::Fresh, None);
    let before = [to_feed(FEED, &worst_trips()), alerts_call(FEED, worst_alerts())];
    let what = "card: 16 legs, 64 middle stops each; 2,048 trips, 256 alerts, the worst";
    row(what, 2 * MIB, 5, &before, &worst_card(), None);
}

const HEAD: [&str; 7] =
    ["call", "port, ms", "original, ms", "ratio", "question 2, ms", "ratio without it", "published, ms"];

pub fn calls() -> bool {
    println!("| {} |", HEAD.join(" | "));
    println!("|---|---|---|---|---|---|---|");
    messages();
    others();
    true
}

/// Growth: messages of more and more updates, and a message of one trip onto more and more keys.
pub fn growth() -> bool {
    println!("| a message of so many updates, ms | |\n|---|---|");
    for trips in [5, 50, 500] {
        let took = measured(2 * MIB, 100, &[], &to_feed(FEED, &full(0..trips)));
        println!("| {} | {:.3} |", 20 * trips, took.whole);
    }
    println!("\n| a message of one trip onto so many keys, ms | |\n|---|---|");
    for (feeds, trips) in [(1, 5), (1, 500), (4, 1_024)] {
        let message = full(0..trips);
        let mut before: Vec<_> =
            [FEED, "a", "b", "c"][..feeds].iter().map(|feed| to_feed(feed, &message)).collect();
        if trips == 1_024 {
            // Its own feed has all keys but the trip's.
            before[0] = to_feed(FEED, &full(0..1_023));
        }
        let took = measured(8 * MIB, 50, &before, &to_feed(FEED, &one_trip()));
        println!("| {} | {:.3} |", 2 * trips as usize * feeds, took.whole);
    }
    println!();
    true
}
