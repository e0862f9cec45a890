//! The command on the ride's morning: what it prints, what it keeps, and how it fails.
mod common;

use common::{morning, Scratch, CLOCK};
use serde_json::{json, Value};
use std::os::unix::fs::FileExt;
use std::{fs, thread};

/// Messages and sheets of the morning up to the late train.
fn ride(at: &Scratch) {
    for [call, feed, file] in [
        ["message", "north", "north-1.pb"],
        ["message", "city", "city-1.pb"],
        ["alerts", "city", "city.alerts"],
        ["message", "north", "north-2.pb"],
    ] {
        assert_eq!(at.said(&[call, feed, &morning(file)]), "accepted\n");
    }
    at.said(&["vehicles", "north", &morning("north.vehicles"), "--clock", CLOCK]);
}

fn json_of(text: &str) -> Value {
    serde_json::from_str(text).unwrap()
}

#[test]
fn a_morning() {
    let at = Scratch::new("morning");
    ride(&at);
    let words = at.said(&["card", &morning("journey.card")]);
    assert!(words.starts_with("  [ DELAYED ]  07:14:00 - 08:20:00, 66 min\n  ! Line B: slow"), "{words}");
    let card = json_of(&at.said(&["card", &morning("journey.card"), "--json"]));
    assert_eq!(card["status"], "DELAYED");
    assert_eq!(card["legs"][1]["transit"]["departure_delay"], 240);
    assert_eq!(card["legs"][1]["transit"]["latitude"], 49.1669);
    let report = json_of(&at.said(&["report", "north", "--json"]));
    assert_eq!(report, json!({"version": 1, "trip_update_count": 2, "header_timestamp": 1_794_809_100}));
    let records = at.said(&["records", "north:H-1207"]);
    assert!(records
        .contains("trip H-1207@20261116, date 20261116, route H\n      1 stop LUZ, departure late 240"));
    assert!(!records.contains("feed city") && records.contains("vehicle unit 7"), "{records}");
    assert!(at.said(&["records", "nobody"]).contains("no record of nobody"));
    at.said(&["fresh"]);
    assert!(at.said(&["card", &morning("journey.card")]).starts_with("  [ SCHEDULED ]"));
}

#[test]
fn alerts_straight_from_a_message() {
    let at = Scratch::new("alerts");
    let message = morning("city.alerts.pb");
    assert_eq!(at.said(&["alerts-message", "city", &message]), "accepted\n");
    let words = at.said(&["card", &morning("journey.card")]);
    assert!(words.starts_with("  [ DISRUPTED ]") && words.contains("! Line B: slow"), "{words}");
    let cut = at.write("cut.pb", &fs::read(&message).unwrap()[1..]);
    let many = at.write("many.pb", &[0x12, 2, 0x2a, 0].repeat(257));
    for (number, feed, file) in [(4, "city", &cut), (5, "a:b", &message), (7, "city", &many)] {
        let (status, said) = at.failed(&["alerts-message", feed, file]);
        let told = format!("alerts-message {feed}: refused by question {number}");
        assert!(status == number && said.contains(&told), "{said}");
    }
    assert_eq!(at.said(&["card", &morning("journey.card")]), words, "a refusal changes nothing");
    assert_eq!(at.failed(&["alerts-message", "city", "nowhere.pb"]).0, 66);
    assert!(at.said(&["explain", "8"]).contains("a sheet 1,048,576"));
    at.said(&["alerts-message", "city", &morning("city-1.pb")]);
    assert!(
        at.said(&["card", &morning("journey.card")]).starts_with("  [ SCHEDULED ]"),
        "no alerts any more"
    );
}

#[test]
fn cards_and_sheets_in_either_form() {
    let at = Scratch::new("forms");
    ride(&at);
    let forms = [("card", "journey.card"), ("alerts", "city.alerts"), ("vehicles", "north.vehicles")];
    for (kind, file) in forms {
        let text = at.write(&format!("{kind}.json"), at.said(&["convert", kind, &morning(file)]).as_bytes());
        let bytes = at.run(&["convert", kind, &text, "--bytes"]).stdout;
        assert_eq!(bytes, fs::read(morning(file)).unwrap(), "{kind}");
    }
    at.said(&["alerts", "city", &at.path("alerts.json")]);
    at.said(&["vehicles", "north", &at.path("vehicles.json"), "--clock", CLOCK]);
    let by_bytes = at.run(&["card", &morning("journey.card"), "--bytes"]).stdout;
    assert_eq!(at.run(&["card", &at.path("card.json"), "--bytes"]).stdout, by_bytes);
    let finished = at.write("finished.card", &by_bytes);
    assert_eq!(at.run(&["card", &finished, "--bytes"]).stdout, by_bytes, "a finished card stays");
}

#[test]
fn refusals_are_exit_statuses() {
    let at = Scratch::new("refusals");
    ride(&at);
    let before = at.said(&["card", &morning("journey.card")]);
    let long = at.write("long.pb", &vec![0; 1_048_577]);
    let cases: [(i32, &[&str]); 6] = [
        (3, &["message", "north", &long]),
        (4, &["message", "north", &morning("north-3.pb")]),
        (4, &["card", &morning("north-1.pb")]),
        (5, &["message", "no:feed", &morning("north-1.pb")]),
        (5, &["report", ""]),
        (6, &["vehicles", "north", &morning("north.vehicles"), "--clock", "-1"]),
    ];
    for (number, words) in cases {
        let (status, said) = at.failed(words);
        assert_eq!(status, number, "{said}");
        assert!(said.contains(&format!("refused by question {number}")), "{said}");
        let told = json_of(&String::from_utf8(at.run(&[words, &["--json"]].concat()).stdout).unwrap());
        assert_eq!(told["refused"], number);
        let meaning = told["meaning"].as_str().unwrap();
        assert!(at.said(&["explain", &number.to_string()]).contains(meaning));
    }
    for feed in ["a", "b"] {
        at.said(&["message", feed, &morning("north-1.pb")]);
    }
    assert_eq!(at.failed(&["message", "c", &morning("north-1.pb")]).0, 7);
    assert_eq!(at.said(&["card", &morning("journey.card")]), before);
}

#[test]
fn other_faults() {
    let at = Scratch::new("faults");
    let bad = at.write("bad.json", br#"{"departure": 1, "arival": 2}"#);
    let cut = at.write("cut.json", b"{");
    let cases: [(i32, &str, &[&str]); 9] = [
        (66, "cannot read nowhere.card: No such file", &["card", "nowhere.card"]),
        (66, "cannot read nowhere.pb", &["message", "north", "nowhere.pb"]),
        (66, "cannot read nowhere", &["panel", "nowhere", "--once"]),
        (65, "there should be no 'arival'", &["card", &bad]),
        (65, "no JSON", &["alerts", "city", &cut]),
        (64, "vehicles wants --clock T", &["vehicles", "north", &bad]),
        (64, "should be a whole number", &["explain", "four"]),
        (64, "there is no number 9", &["explain", "9"]),
        (64, "'drive' is no command", &["drive"]),
    ];
    for (number, why, words) in cases {
        let (status, said) = at.failed(words);
        assert!(status == number && said.contains(why), "{status} {said}");
    }
    assert!(at.said(&[]).contains("usage: mipsuqal"));
}

/// Where a state's file has its overlay.
const OVERLAY: u64 = 65_536;

/// A byte of a state's file becomes another.
fn damage(at: &Scratch, name: &str, place: u64) {
    let file = fs::File::options().read(true).write(true).open(at.0.join("state").join(name)).unwrap();
    let mut byte = [0];
    file.read_exact_at(&mut byte, place).unwrap();
    file.write_all_at(&[byte[0] ^ 1], place).unwrap();
}

#[test]
fn the_newer_valid_file_counts() {
    let at = Scratch::new("newer");
    let count = |at: &Scratch| json_of(&at.said(&["report", "f", "--json"]))["trip_update_count"].clone();
    let take = |k: u64| {
        let file = at.write("one.pb", &common::message(true, &[format!("t{k}")], 1));
        at.said(&["message", "f", &file])
    };
    take(1); // the fresh state went into b, so this is a
    take(2);
    assert_eq!(count(&at), 2);
    damage(&at, "b.overlay", OVERLAY + 3);
    assert_eq!(count(&at), 1, "the other one");
    let warned = String::from_utf8(at.run(&["report", "f"]).stderr).unwrap();
    assert!(warned.contains("the newer state file is damaged"), "{warned}");
    take(3);
    assert_eq!(count(&at), 2);
    damage(&at, "b.overlay", 8); // its seal
    assert_eq!(count(&at), 1);
    damage(&at, "a.overlay", OVERLAY + 3);
    let (status, said) = at.failed(&["report", "f"]);
    assert!(status == 74 && said.contains("both files are damaged"), "{said}");
}

#[test]
fn state_files() {
    let at = Scratch::new("files");
    ride(&at);
    let length = |name: &str| fs::metadata(at.0.join("state").join(name)).unwrap().len();
    assert_eq!((length("a.overlay"), length("b.overlay")), (2 * OVERLAY, 2 * OVERLAY));
    let trips: Vec<String> = (0..1_000).map(|k| format!("t{k}")).collect();
    let large = at.write("large.pb", &common::message(true, &trips, 20));
    at.said(&["message", "north", &large]);
    assert_eq!(json_of(&at.said(&["report", "north", "--json"]))["trip_update_count"], 1_001);
    let state = at.said(&["records", "t999"]);
    assert!(state.contains("20 stop stop, arrival late 1200"), "{state}");
    let grown = length("a.overlay").max(length("b.overlay"));
    assert!(grown > 4 * OVERLAY && grown.is_multiple_of(OVERLAY), "{grown}");
    at.write("state/a.overlay", b"something else");
    let (status, said) = at.failed(&["report", "north"]);
    assert!(status == 74 && said.contains("a.overlay: has 14 bytes: no state file"), "{said}");
}

#[test]
fn commands_at_the_same_time_lose_nothing() {
    let at = Scratch::new("together");
    let files: Vec<_> =
        (0..4).map(|k| at.write(&format!("{k}.pb"), &common::message(true, &[format!("t{k}")], 1))).collect();
    thread::scope(|scope| {
        for file in &files {
            scope.spawn(|| at.said(&["message", "f", file]));
        }
    });
    assert!(at.said(&["report", "f"]).contains("trip_update_count 4"));
}
