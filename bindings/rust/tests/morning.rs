//! The ride's morning played on the wrapper: every card and every raw record in the words that the proved program
//! `ride` prints (crates/ride/stdout).
use mipsuqal::{
    feed_alerts, Alert, AlertSheet, Card, Form, Overlay, Overlays, Panel, Refusal, Status, Transit,
    VehicleSheet,
};
use std::fmt::Write;
use std::fs;

const RIDE: &str = concat!(env!("CARGO_MANIFEST_DIR"), "/../../crates/ride");

fn file(name: &str) -> Vec<u8> {
    fs::read(format!("{RIDE}/data/{name}")).unwrap()
}

fn text(name: &str) -> String {
    fs::read_to_string(format!("{RIDE}/{name}")).unwrap()
}

fn said(answer: Result<(), Refusal>) -> String {
    // The program says the refusal in fewer words.
    answer.map_or_else(|refusal| refusal.to_string(), |()| "accepted".into())
}

/// A step of the ride, and what the program prints of it.
fn step(panel: &mut Panel, words: &mut std::str::Lines) -> Option<String> {
    let call = words.next()?;
    let mut next = || words.next().expect("a step's word");
    Some(match call {
        "message" => {
            let feed = next();
            format!("message {feed}: {}\n", said(panel.message(feed, &file(next()))))
        }
        "alerts" => {
            let feed = next();
            let sheet = AlertSheet::decode(&file(next())).unwrap();
            format!("alerts {feed}: {}\n", said(panel.alert_sheet(feed, &sheet)))
        }
        "vehicles" => {
            let (feed, clock) = (next(), next().parse().unwrap());
            let sheet = VehicleSheet::decode(&file(next())).unwrap();
            format!("vehicles {feed}: {}\n", said(panel.vehicle_sheet(feed, &sheet, clock)))
        }
        "card" => {
            let before = Card::decode(&file(next())).unwrap();
            format!("card: accepted\nbefore:\n{before}now:\n{:#}", panel.card(&before).unwrap())
        }
        "records" => format!("records\n{}", panel.state().unwrap()),
        _ => panic!("no step {call}"),
    })
}

#[test]
fn the_morning_reads_as_in_the_ride() {
    let args = text("args");
    let mut words = args.lines();
    let mut panel = Panel::new();
    let mut printed = String::new();
    while let Some(said) = step(&mut panel, &mut words) {
        write!(printed, "\n> {said}").unwrap();
    }
    let short = "it has not its form";
    let long = Refusal::BrokenForm.meaning();
    assert_eq!(printed.replace(long, short), text("stdout"));
}

#[test]
fn a_refused_call_changes_nothing() {
    let mut panel = Panel::new();
    panel.message("north", &file("north-1.pb")).unwrap();
    let before = panel.state().unwrap();
    assert_eq!(panel.message("north", &file("north-3.pb")), Err(Refusal::BrokenForm));
    assert_eq!(panel.message("no:feed", &file("north-1.pb")), Err(Refusal::TextLimit));
    assert_eq!(panel.message("north", &vec![0; 1_048_577]), Err(Refusal::TooLong));
    assert_eq!(panel.vehicle_sheet_bytes("north", &file("north.vehicles"), -1), Err(Refusal::OutOfRange));
    assert_eq!(panel.state().unwrap(), before);
    for feed in ["a", "b", "c"] {
        panel.alert_sheet_bytes(feed, &[1, 0]).unwrap();
    }
    assert_eq!(panel.alert_sheet_bytes("d", &[1, 0]), Err(Refusal::TooMany));
}

/// The message has the sheet's alerts, but for the feed's prefix, which ids in a message get.
#[test]
fn alerts_straight_from_a_message() {
    let message = file("city.alerts.pb");
    let mut sheet = AlertSheet::decode(&file("city.alerts")).unwrap();
    let routes = sheet.alerts.iter_mut().flat_map(|alert: &mut Alert| &mut alert.routes);
    routes.for_each(|route| *route = format!("city:{route}"));
    assert_eq!(feed_alerts("city", &message).unwrap(), sheet.encode());
    assert_eq!(feed_alerts("city", &[]).unwrap(), [1, 0], "no alerts: the last zero is the sheet's own");
    let mut panel = Panel::new();
    panel.alert_message("city", &message).unwrap();
    assert_eq!(panel.state().unwrap().feeds[0].alerts, sheet.alerts);
    let journey = Card::decode(&file("journey.card")).unwrap();
    let card = panel.card(&journey).unwrap();
    assert_eq!(
        (card.status, &card.headers[..]),
        (Status::Disrupted, &[sheet.alerts[0].header.clone().unwrap()][..])
    );
    panel.message("city", &message).unwrap();
    assert!(panel.state().unwrap().feeds[0].trips.is_empty(), "the trip call skips alerts");
    panel.alert_message("city", &file("city-1.pb")).unwrap();
    assert!(panel.state().unwrap().feeds[0].alerts.is_empty(), "trips are no alerts");
}

#[test]
fn a_refused_message_changes_no_alert() {
    let message = file("city.alerts.pb");
    let mut panel = Panel::new();
    panel.alert_message("city", &message).unwrap();
    let before = panel.state().unwrap();
    assert_eq!(panel.alert_message("city", &message[..message.len() - 1]), Err(Refusal::BrokenForm));
    assert_eq!(panel.alert_message("a city", &message), Err(Refusal::TextLimit));
    assert_eq!(panel.alert_message("city", &vec![0; 1_048_577]), Err(Refusal::TooLong));
    assert_eq!(panel.alert_message("city", &[0x12, 2, 0x2a, 0].repeat(257)), Err(Refusal::TooMany));
    assert_eq!(panel.state().unwrap(), before);
    panel.alert_message("city", &[0x12, 2, 0x2a, 0].repeat(256)).unwrap();
}

#[test]
fn bytes_and_values_give_the_same_card() {
    let mut panel = Panel::new();
    panel.message("north", &file("north-2.pb")).unwrap();
    let bytes = panel.card_bytes(&file("journey.card")).unwrap();
    let card = panel.card(&Card::decode(&file("journey.card")).unwrap()).unwrap();
    assert_eq!(Card::decode(&bytes).unwrap(), card);
    assert_eq!(card.status, Status::Delayed);
    assert_eq!(panel.card_bytes(&bytes).unwrap(), bytes, "a finished card stays");
}

#[test]
fn reports_follow_messages_and_sheets() {
    let mut panel = Panel::new();
    assert_eq!(panel.report("north").unwrap(), Default::default());
    panel.message("north", &file("north-1.pb")).unwrap();
    panel.vehicle_sheet_bytes("north", &file("north.vehicles"), 1_794_809_100).unwrap();
    let report = panel.report("north").unwrap();
    assert_eq!((report.version, report.trip_update_count), (1, 2), "after a vehicle sheet all keys count");
    assert_eq!(report.header_timestamp, Some(1_794_808_800));
    assert_eq!(panel.report("no feed"), Err(Refusal::TextLimit));
}

#[test]
fn the_records_behind_a_train() {
    let mut panel = Panel::new();
    panel.message("north", &file("north-2.pb")).unwrap();
    panel.message("city", &file("city-1.pb")).unwrap();
    panel.vehicle_sheet_bytes("north", &file("north.vehicles"), 1_794_809_100).unwrap();
    let state = panel.state().unwrap();
    for name in ["north:H-1207", "H-1207"] {
        let about = state.about(name);
        let keys: Vec<_> = about.feeds[0].trips.iter().map(|trip| trip.key.as_str()).collect();
        assert_eq!(keys, ["H-1207", "H-1207@20261116"], "{name}");
        assert_eq!((about.feeds.len(), about.feeds[0].vehicles.len()), (1, usize::from(name.contains(':'))));
    }
    assert_eq!(state.about("H-1207@20261116").feeds[0].trips.len(), 1);
    assert!(state.about("H-120").feeds.is_empty());
    let leg =
        |trip: &str, route: &str| Transit { trip: trip.into(), route: route.into(), ..Transit::default() };
    assert_eq!(state.behind(&leg("north:H-1207", "north:H")), state.about("north:H-1207"));
    assert_eq!(state.behind(&leg("north:H-1209", "north:H")).feeds[0].trips.len(), 2, "those of its route");
    assert!(state.behind(&leg("north:H-1209", "north:K")).feeds.is_empty());
}

/// Overlays of one's own that hold no overlay.
struct Zeros([Box<Overlay>; 2]);

impl Overlays for Zeros {
    fn current(&self) -> &Overlay {
        &self.0[0]
    }

    fn both(&mut self) -> (&Overlay, &mut Overlay) {
        let [old, new] = &mut self.0;
        (old, new)
    }

    fn turn(&mut self) {
        self.0.swap(0, 1);
    }
}

#[test]
fn zeros_are_no_overlay() {
    let mut panel = Panel::over(Zeros([Overlay::zeroed(), Overlay::zeroed()]));
    assert_eq!(panel.message("north", &file("north-1.pb")), Err(Refusal::NoOverlay));
    assert_eq!(panel.report("north"), Err(Refusal::NoOverlay));
    assert!(panel.state().is_err());
    panel.fresh();
    panel.message("north", &file("north-1.pb")).unwrap();
}
