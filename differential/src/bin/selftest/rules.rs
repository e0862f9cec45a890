//! Rules of document 01's "Overlay" and "Times and status" in small inputs; what is expected is
//! written from the paper.
use crate::{tell::last, Tally};
use differential::form::{Form, Small, Text};
use differential::messages::*;
use differential::panel::{Answer, Call, Panel};
use differential::papers::{Alert, Card, Leg, Transit};
use differential::routing::journey::parts;
use differential::samples::*;

pub fn run(tally: &mut Tally) {
    times(tally);
    paris_dates(tally);
    wire(tally);
    keys(tally);
    reports(tally);
    look_up(tally);
    vehicles(tally);
    candidates(tally);
    alert_texts(tally);
    status(tally);
    cards(tally);
}

/// A stop time update at a sequence.
fn at(sequence: i64, fields: &[Vec<u8>]) -> Vec<u8> {
    stop_time_update(&[vec![stop_sequence(sequence)], fields.to_vec()].concat())
}

fn times(tally: &mut Tally) {
    let mut case = |input: &str, fields: &[Vec<u8>], leg: Transit, expected: &str| {
        tally.case("times", input, &last(&[message_call(&[trip_1(fields)]), leg_call(leg)]), expected);
    };
    let event_delay = |seconds| departure(&[delay(seconds)]);
    case("record without data", &[], leg(), "SCHEDULED -/- -/-");
    case("trip delay 60", &[trip_delay(60)], leg(), "DELAYED +60/60 +60/60");
    case("trip delay -60", &[trip_delay(-60)], leg(), "DELAYED -60/-60 -60/-60");
    case(
        "own delay 30, trip's 60",
        &[at(1, &[event_delay(30)]), trip_delay(60)],
        leg(),
        "DELAYED +30/30 +60/60",
    );
    case(
        "other event's delay 45, trip's 60",
        &[at(1, &[arrival(&[delay(45)])]), trip_delay(60)],
        leg(),
        "DELAYED +45/45 +60/60",
    );
    case(
        "own time +90, own delay 30",
        &[at(1, &[departure(&[time(NOON + 90), delay(30)])])],
        leg(),
        "DELAYED +90/90 +0/0",
    );
    case(
        "other event's time +20, own delay 50",
        &[at(1, &[arrival(&[time(NOON + 20)]), event_delay(50)])],
        leg(),
        "DELAYED +20/20 +0/0",
    );
    case("own time as scheduled", &[at(1, &[departure(&[time(NOON)])])], leg(), "ON_TIME +0/0 +0/0");
    case(
        "sequence 1 at stop Z +10, sequence 2 at stop A +20",
        &[at(1, &[stop_id("Z"), event_delay(10)]), at(2, &[stop_id("A"), event_delay(20)])],
        leg(),
        "DELAYED +10/10 +0/0",
    );
    case(
        "sequence 1 without data, sequence 2 at stop A +20, trip +60",
        &[at(1, &[]), at(2, &[stop_id("A"), event_delay(20)]), trip_delay(60)],
        leg(),
        "DELAYED +60/60 +60/60",
    );
    case(
        "stop A at sequences 9 (+9) and 8 (+8)",
        &[at(9, &[stop_id("A"), event_delay(9)]), at(8, &[stop_id("A"), event_delay(8)])],
        leg(),
        "DELAYED +8/8 +0/0",
    );
    let from = |stop: &str| Transit { from: stop.into(), ..leg() };
    let stop_7 = |stop: &str| [at(7, &[stop_id(stop), event_delay(7)])];
    case("stop x:A on the message, A on the card", &stop_7("x:A"), from("A"), "DELAYED +7/7 +0/0");
    case("stop A on the message, f:x:A on the card", &stop_7("A"), from("f:x:A"), "SCHEDULED -/- -/-");
    case("stop A: on the message, none on the card", &stop_7("A:"), from(""), "DELAYED +7/7 +0/0");
    case("stop A on the message, none on the card", &stop_7("A"), from(""), "SCHEDULED -/- -/-");
    case(
        "boarding stop skipped, no delay",
        &[at(1, &[stop_relationship(SKIPPED)])],
        leg(),
        "ON_TIME +0/0 +0/0",
    );
    let via = Transit { middles: vec![middle("f:C"), middle("f:D")], ..leg() };
    case(
        "middle stop C departs +20",
        &[at(3, &[stop_id("C"), event_delay(20)])],
        via,
        "SCHEDULED -/- -/- via +20 +20 via - -",
    );
    // Both ends of the 32 bits that a delay is read from.
    let early = Transit { scheduled_departure: 946_684_800, ..leg() };
    let far = |seconds| [at(1, &[departure(&[time(seconds)])])];
    case(
        "scheduled 946,684,800, time 3,094,168,447",
        &far(3_094_168_447),
        early.clone(),
        "DELAYED +2147483647/2147483647 +0/0",
    );
    case(
        "scheduled 946,684,800, time 3,094,168,448",
        &far(3_094_168_448),
        early,
        "DELAYED +2147483648/-2147483648 +0/0",
    );
}

fn paris_dates(tally: &mut Tally) {
    for (instant, date) in [
        (1_767_308_399, "20260101"),
        (1_767_308_400, "20260102"),
        (1_782_943_199, "20260701"),
        (1_782_943_200, "20260702"),
        (946_684_800, "20000101"),
        (2_145_916_799, "20380101"),
    ] {
        // The record of that date is found by its route, and no other is there.
        let descriptor = trip(&[trip_id("other"), route_id("R"), start_date(date)]);
        let message = message_call(&[entity(&[trip_update(&[descriptor, trip_delay(30)])])]);
        let leg = Transit { scheduled_departure: instant, ..leg() };
        let answer = last(&[message, leg_call(leg)]);
        tally.case("Paris date", &format!("{instant} is {date}"), &answer, "DELAYED +30/30 +30/30");
    }
}

/// Whole messages, byte by byte.
fn wire(tally: &mut Tally) {
    let before = || message_call(&[trip_1(&[trip_delay(1)])]);
    for (input, bytes, expected) in [
        ("no bytes", "", "f[]"),
        ("relationship 2^32 + 3", "12 0d 1a 0b 0a 09 0a 01 31 20 83 80 80 80 10", "f[f:1=(- cancelled)]"),
        ("relationship 3, then 99", "12 0b 1a 09 0a 07 0a 01 31 20 03 20 63", "f[f:1=(-)]"),
        ("is_deleted 2^32 after the update", "12 0d 1a 05 0a 03 0a 01 31 10 80 80 80 80 10", "f[]"),
        ("is_deleted 1, then 0", "12 0b 10 01 1a 05 0a 03 0a 01 31 10 00", "f[f:1=(-)]"),
        ("incrementality 2^32 + 1", "0a 06 10 81 80 80 80 10", "f[f:1=(1)]"),
        ("incrementality 1, then 7", "0a 04 10 01 10 07", "f[]"),
        ("header in two parts", "0a 02 10 01 0a 02 18 07", "f[f:1=(1)]"),
        (
            "trip update in two parts, delay -60",
            "12 14 1a 05 0a 03 0a 01 31 1a 0b 28 c4 ff ff ff ff ff ff ff ff 01",
            "f[f:1=(-60)]",
        ),
        (
            "sequences 2^32 + 1 and 1",
            "12 1b 1a 19 0a 03 0a 01 31 12 0a 08 81 80 80 80 10 12 02 08 09 12 06 08 01 12 02 08 05",
            "f[f:1=(- 1:-/5/-/-/-)]",
        ),
        ("time -1", "12 16 1a 14 0a 03 0a 01 31 12 0d 12 0b 10 ff ff ff ff ff ff ff ff ff 01", "refused 6"),
    ] {
        let message: Vec<u8> =
            bytes.split_whitespace().map(|byte| u8::from_str_radix(byte, 16).unwrap()).collect();
        tally.case("wire", input, &last(&[before(), message_call(&[message])]), expected);
    }
}

fn keys(tally: &mut Tally) {
    let mut case = |input: &str, parts: &[Vec<u8>], expected: &str| {
        tally.case("keys", input, &last(&[message_call(parts)]), expected);
    };
    let record =
        |descriptor: &[Vec<u8>], seconds| entity(&[trip_update(&[trip(descriptor), trip_delay(seconds)])]);
    let (first, second) = (start_date("20260101"), start_date("20260102"));
    case("dated", &[record(&[trip_id("1"), first.clone()], 60)], "f[f:1=(60) f:1@20260101=(60)]");
    case(
        "trip 1 of two dates",
        &[record(&[trip_id("1"), first.clone()], 60), record(&[trip_id("1"), second], 90)],
        "f[f:1=(90) f:1@20260101=(60) f:1@20260102=(90)]",
    );
    case(
        "raw 1@20260101 after trip 1 of that date",
        &[record(&[trip_id("1"), first.clone()], 60), record(&[trip_id("1@20260101")], 90)],
        "f[f:1=(60) f:1@20260101=(90)]",
    );
    case(
        "no trip id",
        &[record(&[route_id("R"), direction_id(0), first, start_time("08:00:00")], 60)],
        "f[f:#r=f:R&d=0&sd=20260101&st=08:00:00=(60)]",
    );
    case(
        "trip id 1, then an empty one",
        &[record(&[trip_id("1"), route_id("R"), trip_id("")], 60)],
        "f[f:#r=f:R&d=&sd=&st==(60)]",
    );
    case("neither trip id nor route", &[record(&[start_time("8")], 60)], "f[]");
    case("deleted", &[entity(&[trip_update(&[trip(&[trip_id("1")])]), is_deleted(1)])], "f[]");
    case(
        "two updates without sequence",
        &[trip_1(&[stop_time_update(&[stop_id("A")]), stop_time_update(&[arrival(&[delay(9)])])])],
        "f[f:1=(- 0:-/9/-/-/-)]",
    );
}

fn reports(tally: &mut Tally) {
    let mut case =
        |input: &str, calls: &[Call], expected: &str| tally.case("report", input, &last(calls), expected);
    let dated = || entity(&[trip_update(&[trip(&[trip_id("1"), start_date("20260101")])])]);
    let stamped = message_call(&[dated(), header(&[timestamp(-1)])]);
    case("no feed", &[report_call()], "version 0, count 0, timestamp -");
    case(
        "dated trip, timestamp 2^64 - 1",
        &[stamped.clone(), report_call()],
        "version 0, count 1, timestamp -1",
    );
    case(
        "then a message without timestamp",
        &[stamped.clone(), message_call(&[]), report_call()],
        "version 0, count 0, timestamp -1",
    );
    case(
        "dated trip, then a vehicle sheet",
        &[stamped.clone(), vehicles_call(vec![], NOON), report_call()],
        "version 1, count 2, timestamp -1",
    );
    case(
        "dated trip, vehicle sheet, alert sheet",
        &[stamped, vehicles_call(vec![], NOON), alerts_call(vec![]), report_call()],
        "version 1, count 2, timestamp -1",
    );
    let odd = |feed: &str| Call::Message { feed: feed.into(), message: dated() };
    case(
        "feed id a@b",
        &[odd("a@b"), Call::Report { feed: "a@b".into() }],
        "version 0, count 0, timestamp -",
    );
}

fn look_up(tally: &mut Tally) {
    let mut case = |input: &str, parts: &[Vec<u8>], leg: Transit, expected: &str| {
        tally.case("look-up", input, &last(&[message_call(parts), leg_call(leg)]), expected);
    };
    let record =
        |descriptor: &[Vec<u8>], seconds| entity(&[trip_update(&[trip(descriptor), trip_delay(seconds)])]);
    let on = |trip: &str| Transit { trip: trip.into(), ..leg() };
    let late = "DELAYED +60/60 +60/60";
    let unknown = "SCHEDULED -/- -/-";
    case("f:1@20260101, key f:1", &[record(&[trip_id("1")], 60)], on("f:1@20260101"), late);
    case("f:1@a@b, key f:1", &[record(&[trip_id("1")], 60)], on("f:1@a@b"), unknown);
    case("f:1@a@b, key f:1@a", &[record(&[trip_id("1@a")], 60)], on("f:1@a@b"), late);
    case("trip id without ':'", &[record(&[trip_id("1")], 60)], on("f"), unknown);
    case("key of an incomplete record", &[record(&[route_id("Q")], 60)], on("f:#r=f:Q&d=&sd=&st="), late);

    let date = || start_date("20260101");
    let routed = |route: &str| [record(&[trip_id("other"), route_id(route), date()], 60)];
    let by = |route: &str| Transit { route: route.into(), ..leg() };
    case("route and date of another trip", &routed("R"), leg(), late);
    case("no route on the leg", &routed("R"), by(""), unknown);
    case("record of another date", &[record(&[route_id("R"), start_date("20260102")], 60)], leg(), unknown);
    case("record without date", &[record(&[route_id("R")], 60)], leg(), unknown);
    case("route f:f:R, stored f:R", &routed("R"), by("f:f:R"), late);
    case("route f:R, stored f:x:f:R", &routed("x:f:R"), by("f:R"), late);
    case("route f:x:R, stored f:R", &routed("R"), by("f:x:R"), unknown);
    case("route f, stored f:f", &routed("f"), by("f"), late);
    case("route f, stored f:R", &routed("R"), by("f"), unknown);
    case(
        "two records of the route: the smaller key",
        &[
            record(&[trip_id("b"), route_id("R"), date()], 20),
            record(&[trip_id("a"), route_id("R"), date()], 60),
        ],
        leg(),
        late,
    );
    case("trip of feed g, route of feed f", &routed("R"), on("g:1"), late);
    let heading = |direction| Transit { direction, ..leg() };
    let directed = [record(&[route_id("R"), date(), direction_id(1)], 60)];
    case("direction 1 on both", &directed, heading(Some(1)), late);
    case("direction 0, record's 1", &directed, heading(Some(0)), unknown);
    case("no direction, record's 1", &directed, heading(None), late);
    case("direction 1, record has none", &routed("R"), heading(Some(1)), unknown);
}

fn vehicles(tally: &mut Tally) {
    let mut case = |input: &str, calls: Vec<Call>, expected: &str| {
        tally.case("vehicles", input, &last(&calls), expected);
    };
    let on = |trip: &str| leg_call(Transit { trip: trip.into(), ..leg() });
    let sheet = |vehicles| vehicles_call(vehicles, NOON);
    case(
        "updated at clock - 900 and one before",
        vec![sheet(vec![vehicle("a", None, NOON - 900), vehicle("b", None, NOON - 901)])],
        "f[vehicle a]",
    );
    case(
        "a stale entry over a fresh one",
        vec![sheet(vec![vehicle("a", None, NOON)]), sheet(vec![vehicle("a", None, NOON - 901)])],
        "f[]",
    );
    case(
        "two of the trip, and one keyed by it",
        vec![
            sheet(vec![
                vehicle("f:1", None, NOON + 1),
                vehicle("y", Some("f:1"), NOON + 2),
                vehicle("z", Some("f:1"), NOON + 3),
            ]),
            leg_call(leg()),
        ],
        &format!("SCHEDULED -/- -/- vehicle {}", NOON + 2),
    );
    case(
        "one keyed by the trip",
        vec![sheet(vec![vehicle("f:1", None, NOON)]), leg_call(leg())],
        &format!("SCHEDULED -/- -/- vehicle {NOON}"),
    );
    case(
        "dated leg, vehicle of the trip undated",
        vec![sheet(vec![vehicle("f:1", Some("f:1"), NOON)]), on("f:1@20260101")],
        "SCHEDULED -/- -/-",
    );
    case(
        "trip id f, without ':'",
        vec![sheet(vec![vehicle("k", Some("f"), NOON)]), on("f")],
        &format!("SCHEDULED -/- -/- vehicle {NOON}"),
    );
}

fn texts(ids: &[&str]) -> Vec<Text> {
    ids.iter().map(|id| Text::from(*id)).collect()
}

/// Which alerts reach a leg and apply to it.
fn candidates(tally: &mut Tally) {
    let mut case = |input: &str, [trips, routes, stops]: [&[&str]; 3], leg: Transit, applies: bool| {
        let alert = Alert { trips: texts(trips), routes: texts(routes), stops: texts(stops), ..alert() };
        let expected = if applies { "DISRUPTED -/- -/- \"late\"" } else { "SCHEDULED -/- -/-" };
        tally.case("alerts", input, &last(&[alerts_call(vec![alert]), leg_call(leg)]), expected);
    };
    // Makes the alert a candidate of the leg and nothing more.
    const MET: &str = "f:1@z";
    let on = |trip: &str| Transit { trip: trip.into(), ..leg() };
    let by = |route: &str| Transit { route: route.into(), ..leg() };
    let from = |stop: &str| Transit { from: stop.into(), ..leg() };
    case("trip f:1", [&["f:1"], &[], &[]], leg(), true);
    case("trip 1", [&["1"], &[], &[]], leg(), false);
    case("trip f:1@20260101, leg undated", [&["f:1@20260101"], &[], &[]], leg(), false);
    case("trip f:1, leg dated", [&["f:1"], &[], &[]], on("f:1@20260101"), true);
    case("trip g:f:1", [&["g:f:1"], &[], &[]], leg(), false);
    case("trip g:f:1, a candidate", [&["g:f:1", MET], &[], &[]], leg(), true);
    case("stop A", [&[], &[], &["A"]], leg(), true);
    case("stop g:B", [&[], &[], &["g:B"]], leg(), true);
    case("stop f:a", [&[], &[], &["f:a"]], leg(), false);
    case("stop f:a, a candidate", [&[MET], &[], &["f:a"]], leg(), true);
    case("stop f:x/A, a candidate", [&[MET], &[], &["f:x/A"]], leg(), true);
    case("stop f:## for f:--, a candidate", [&[MET], &[], &["f:##"]], from("f:--"), true);
    case("stop g:## for f:--, a candidate", [&[MET], &[], &["g:##"]], from("f:--"), false);
    case("route R for f:R", [&[], &["R"], &[]], leg(), false);
    case("route f:R", [&[], &["f:R"], &[]], leg(), true);
    case("route f:rou for f:ROU", [&[], &["f:rou"], &[]], by("f:ROU"), false);
    case("route f:rou for f:ROU, a candidate", [&[MET], &["f:rou"], &[]], by("f:ROU"), true);
    case("route STIF:Line::C01375:", [&[], &["f:STIF:Line::C01375:"], &[]], by("f:C01375"), false);
    case(
        "route STIF:Line::C01375:, a candidate",
        [&[MET], &["f:STIF:Line::C01375:"], &[]],
        by("f:C01375"),
        true,
    );
    case("route x:5 for short name 5, a candidate", [&[MET], &["x:5"], &[]], leg(), true);
    case("route C01375 for short name 5, a candidate", [&[MET], &["C01375"], &[]], leg(), false);
}

/// Codes, lines that a text names, and what a text rules out.
fn alert_texts(tally: &mut Tally) {
    for (code, found) in [("C017", false), ("c0174", true), ("C0174212", true), ("C01742123", false)] {
        let answer = parts::product_code_token(code).is_some();
        tally.case("product code", code, &answer.to_string(), &found.to_string());
    }
    for (text, names) in [
        ("Metro 14", "1 14"),
        ("ligne 15", "1"),
        ("Tram T3a interrompu", "T3"),
        ("RER B et D", "B"),
        ("Préférer bus", "B"),
        ("opérera", "A"),
        ("lignes 4 et 5", "4 5"),
    ] {
        let answer = parts::commercial_lines_in_text(&parts::fold_alert_blob(text)).join(" ");
        tally.case("lines named", text, &answer, names);
    }
    let mut case = |input: &str, mode: &str, applies: bool| {
        let alert = Alert { header: Some(input.into()), routes: texts(&["f:R"]), ..alert() };
        let leg = Transit { mode: mode.into(), ..leg() };
        let expected =
            if applies { format!("DISRUPTED -/- -/- \"{input}\"") } else { "SCHEDULED -/- -/-".into() };
        tally.case(
            "texts",
            &format!("\"{input}\" for line 5, mode {mode}"),
            &last(&[alerts_call(vec![alert]), leg_call(leg)]),
            &expected,
        );
    };
    case("Info trafic routier", "Rail", false);
    case("Info trafic routier", "BUS", true);
    case("ARRET DEPLACE, sens de circulation", "RER", false);
    case("arrêt déplacé circulation", "RER", true);
    case("Incident ligne 5", "METRO", true);
    case("Incident ligne 4", "METRO", false);
    case("Travaux sur les RER B et D: privilégiez la ligne 5", "METRO", false);
    case("Ligne 5 : privilégiez le bus", "METRO", true);
}

fn status(tally: &mut Tally) {
    let mut case = |input: &str, fields: &[Vec<u8>], alerts: Vec<Alert>, leg: Transit, expected: &str| {
        let calls = [message_call(&[trip_1(fields)]), alerts_call(alerts), leg_call(leg)];
        tally.case("status", input, &last(&calls), expected);
    };
    let stopped = trip(&[trip_relationship(CANCELED)]);
    let met = |header: Option<&str>, description: Option<&str>| {
        let text = |text: Option<&str>| text.map(Text::from);
        vec![Alert {
            header: text(header),
            description: text(description),
            trips: texts(&["f:1"]),
            ..alert()
        }]
    };
    let late = || met(Some("late"), None);
    case(
        "cancelled, late, alert",
        &[stopped.clone(), trip_delay(5)],
        late(),
        leg(),
        "CANCELLED +5/5 +5/5 cancelled \"late\"",
    );
    case("cancelled without delay", &[stopped], vec![], leg(), "CANCELLED +0/0 +0/0 cancelled");
    case("late, alert", &[trip_delay(5)], late(), leg(), "DELAYED +5/5 +5/5 \"late\"");
    case("on time, alert", &[trip_delay(0)], late(), leg(), "DISRUPTED +0/0 +0/0 \"late\"");
    case("on time", &[trip_delay(0)], vec![], leg(), "ON_TIME +0/0 +0/0");
    let arrived = Transit { cancelled: true, departure_delay: Some(7), ..leg() };
    case("arrived cancelled with a delay", &[], vec![], arrived, "SCHEDULED -/7 -/- cancelled");
    case("empty header", &[], met(Some(""), Some("late")), leg(), "DISRUPTED -/- -/-");
    case("no header", &[], met(None, Some("late")), leg(), "DISRUPTED -/- -/- \"late\"");
    let long = "é".repeat(130);
    let cut = format!("DISRUPTED -/- -/- \"{}\"", "é".repeat(120));
    case("no header, 130 characters of description", &[], met(None, Some(&long)), leg(), &cut);
    let several = ["b", "a", "b", "B"].iter().flat_map(|header| met(Some(header), None)).collect();
    case("headers b, a, b, B", &[], several, leg(), "DISRUPTED -/- -/- \"B\" \"a\" \"b\"");
}

/// Departure, arrival and duration, as distances from noon.
fn cards(tally: &mut Tally) {
    let mut case = |input: &str, legs: Vec<Leg>, expected: &str| {
        let mut panel = Panel::default();
        panel.run(&message_call(&[trip_1(&[trip_delay(30)])]));
        let arriving = Card { headers: texts(&["old"]), status: Small(3), duration: 9, ..card(legs) };
        let Some(Answer::Card(bytes)) = panel.run(&card_call(&arriving)) else { panic!("a card") };
        let card = Card::of(&bytes).expect("a card");
        let answer = format!(
            "{:+} {:+} {:+} {}",
            card.departure - NOON,
            card.arrival - NOON,
            card.duration,
            card.headers.len()
        );
        tally.case("card", input, &answer, expected);
    };
    let other = Transit { trip: "f:other".into(), route: "f:Q".into(), ..leg() };
    let realtime = Transit { realtime_departure: Some(NOON - 7), ..other.clone() };
    case("no legs, an old header", vec![], "+0 +0 +0 0");
    case("walk alone", vec![Leg::Walk("way".into())], "+0 +0 +0 0");
    case("leg of trip 1, +30", vec![Leg::Transit(leg())], "+30 +1530 +1500 0");
    case(
        "walk, other trip, trip 1",
        vec![Leg::Walk("".into()), Leg::Transit(other.clone()), Leg::Transit(leg())],
        "+0 +1530 +1530 0",
    );
    case(
        "arrived realtime, then other trip",
        vec![Leg::Transit(realtime), Leg::Transit(other)],
        "-7 +0 +7 0",
    );

    let empty = [1, 0x80, 0xe4, 0xad, 0x95, 0x0d, 0x80, 0xe4, 0xad, 0x95, 0x0d, 0, 0, 0, 0];
    let answer = Panel::default().run(&Call::Card { card: empty.into() });
    let same = format!("{:?}", Some(Answer::Card(empty.into())));
    tally.case("card", "no legs, 1,767,225,600 twice", &format!("{answer:?}"), &same);
}
