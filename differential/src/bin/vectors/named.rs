//! Lists for what a reader looks for: each status, each number that a replay can give, and the slips that document 01
//! calls likely, each with an answer that the slip would not give.
use differential::form::Text;
use differential::messages::*;
use differential::panel::Call;
use differential::papers::{Alert, Card, Leg, Transit};
use differential::samples::*;

type Named = (String, Vec<Call>);

pub fn lists() -> Vec<Named> {
    let mut lists: Vec<Named> = Vec::new();
    let mut add = |name: &str, list: Vec<Call>| lists.push((name.into(), list));
    add("no legs, the same again", vec![card_call(&card(vec![]))]);
    for (name, message) in statuses() {
        add(name, vec![message_call(&[message]), plain()]);
    }
    add("DISRUPTED", vec![alerts_call(vec![about_the_trip("late")]), message_call(&[known(&[])]), plain()]);
    slips(&mut add);
    days(&mut add);
    added_fields(&mut add);
    refused(&mut add);
    lists
}

fn plain() -> Call {
    leg_call(leg())
}

fn known(fields: &[Vec<u8>]) -> Vec<u8> {
    trip_1(fields)
}

fn about_the_trip(header: &str) -> Alert {
    Alert { header: Some(header.into()), trips: vec!["f:1".into()], ..Alert::default() }
}

fn from_a(fields: &[Vec<u8>]) -> Vec<u8> {
    stop_time_update(&[vec![stop_sequence(1), stop_id("A")], fields.to_vec()].concat())
}

fn statuses() -> Vec<(&'static str, Vec<u8>)> {
    vec![
        ("SCHEDULED, no such trip", entity(&[trip_update(&[trip(&[trip_id("2")])])])),
        ("ON_TIME", known(&[from_a(&[departure(&[delay(0)])])])),
        ("ON_TIME by a time", known(&[from_a(&[departure(&[time(NOON)])])])),
        ("DELAYED", known(&[from_a(&[departure(&[delay(240)])])])),
        ("DELAYED by a time before that of the schedule", known(&[from_a(&[departure(&[time(NOON - 60)])])])),
        ("CANCELLED", known(&[trip(&[trip_relationship(CANCELED)])])),
    ]
}

fn slips(add: &mut dyn FnMut(&str, Vec<Call>)) {
    for (name, letter, count) in [
        ("slip, the label cut at 120 bytes: 120 characters of two bytes", "é", 120),
        ("slip, the label cut at 120 bytes: 121 characters of two bytes", "é", 121),
        ("slip, the label cut at 120 bytes: 121 characters of one byte", "x", 121),
        ("slip, the label cut at 120 bytes: 130 characters of four bytes", "😀", 130),
    ] {
        let alert = Alert {
            header: None,
            description: Some(Text(letter.repeat(count).into())),
            ..about_the_trip("")
        };
        add(name, vec![message_call(&[known(&[])]), alerts_call(vec![alert]), plain()]);
    }
    let long = Alert { header: Some(Text("é".repeat(150).into())), ..about_the_trip("") };
    add("a header is not cut", vec![message_call(&[known(&[])]), alerts_call(vec![long]), plain()]);
    let empty = about_the_trip("");
    add(
        "an empty header, no label, DISRUPTED",
        vec![message_call(&[known(&[])]), alerts_call(vec![empty]), plain()],
    );
    let cancelled = || leg_call(Transit { cancelled: true, ..leg() });
    add("slip, a leg that arrived cancelled, no such trip", vec![cancelled()]);
    add(
        "slip, a leg that arrived cancelled, on a trip that runs",
        vec![message_call(&[known(&[])]), cancelled()],
    );
    let both = known(&[trip_delay(600), from_a(&[arrival(&[delay(60)])])]);
    add("slip, the trip's delay before the other event's", vec![message_call(&[both]), plain()]);
    let other = known(&[from_a(&[arrival(&[time(NOON + 90)]), departure(&[delay(60)])])]);
    add("the other event's time before the own delay", vec![message_call(&[other]), plain()]);
    let of = |sequence, stop: &str, by| {
        stop_time_update(&[stop_sequence(sequence), stop_id(stop), departure(&[delay(by)])])
    };
    let two = known(&[of(1, "C", 60), of(3, "A", 600)]);
    add("slip, the stop id before the sequence", vec![message_call(&[two]), plain()]);
    let by_stop = known(&[of(3, "A", 600)]);
    add("the stop id where no update has the sequence", vec![message_call(&[by_stop]), plain()]);
}

/// A day's messages: later ones count, differences stay, sheets merge, vehicles grow stale.
fn days(add: &mut dyn FnMut(&str, Vec<Call>)) {
    let late = |by| known(&[from_a(&[departure(&[delay(by)])])]);
    let differential = |parts: Vec<u8>| message_call(&[header(&[incrementality(DIFFERENTIAL)]), parts]);
    let other = || entity(&[trip_update(&[trip(&[trip_id("2"), trip_relationship(CANCELED)])])]);
    add("the second message counts", vec![message_call(&[late(60)]), message_call(&[late(0)]), plain()]);
    add(
        "a FULL message clears",
        vec![message_call(&[late(60)]), message_call(&[other()]), plain(), report_call()],
    );
    add(
        "a DIFFERENTIAL one does not",
        vec![message_call(&[late(60)]), differential(other()), plain(), report_call()],
    );
    add(
        "an empty message clears",
        vec![message_call(&[late(60)]), message_call(&[]), plain(), report_call()],
    );
    let deleted =
        entity(&[is_deleted(1), trip_update(&[trip(&[trip_id("1"), trip_relationship(CANCELED)])])]);
    add("a deleted entity is passed over", vec![message_call(&[late(60), deleted]), plain()]);
    let seen = |updated, clock| vehicles_call(vec![vehicle("k", Some("f:1"), updated)], clock);
    for (name, clock) in [("a vehicle of 900 seconds stays", NOON + 900), ("of 901 it goes", NOON + 901)] {
        let list = vec![message_call(&[late(0)]), seen(NOON, NOON), vehicles_call(vec![], clock), plain()];
        add(name, [list, vec![report_call()]].concat());
    }
    add("a report of no feed", vec![report_call()]);
    add("a fresh overlay has no feed", vec![message_call(&[late(60)]), Call::Fresh, plain(), report_call()]);
    let again = vec![message_call(&[vec![0x4c]]), plain(), message_call(&[late(0)]), plain()];
    add("a damaged message leaves all", [vec![message_call(&[late(60)])], again].concat());
}

fn added_fields(add: &mut dyn FnMut(&str, Vec<Call>)) {
    let more = [vec![0x48, 0x7f], vec![0x7a, 2, 0xff, 0xff], vec![0x4b, 0x53, 0x54, 0x4c]].concat();
    let late = from_a(&[departure(&[delay(240), more.clone()]), more.clone()]);
    let message = [more.clone(), known(&[more.clone(), late]), more];
    add("DELAYED with fields added", vec![message_call(&message), plain()]);
}

fn refused(add: &mut dyn FnMut(&str, Vec<Call>)) {
    let seventeen = card(vec![Leg::Walk("".into()); 17]);
    let too_late = Card { departure: 4_293_400_447, ..card(vec![]) };
    add(
        "seventeen legs, then a departure too late",
        vec![card_call(&seventeen), card_call(&too_late), plain()],
    );
}
