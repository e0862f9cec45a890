//! Alerts and legs that take each side of each test of `alert_applies_to_leg_with_mode` and what it calls.
use crate::alerts::OF_APPLIES;
use crate::reading::{applies, Leg, Met};
use crate::Cases::Listed;
use crate::{equation, Definition, Equation};
use differential::form::Text;
use differential::host;
use differential::literal::{truth, Literal};
use differential::papers::Alert;
use differential::routing::journey::alert_applies_to_leg_with_mode;

pub const DEFINITIONS: &[Definition] =
    &[Definition { name: "branches", cases: Listed(branches), ..OF_APPLIES }];

const LEG: Leg = Leg { trip: "f:1", route: "f:R12", short: "5", from: "f:A", to: "f:B", mode: "BUS" };

fn texts(ids: &[&str]) -> Vec<Text> {
    ids.iter().map(|id| (*id).into()).collect()
}

fn said(header: &str) -> Alert {
    Alert { header: Some(header.into()), ..Alert::default() }
}

fn on_trip(trip: &'static str, alert: &[&str]) -> (Alert, Leg) {
    (Alert { trips: texts(alert), ..Alert::default() }, Leg { trip, ..LEG })
}

fn on_stops(from: &'static str, to: &'static str, alert: &[&str]) -> (Alert, Leg) {
    (Alert { stops: texts(alert), ..Alert::default() }, Leg { from, to, ..LEG })
}

fn on_route(route: &'static str, short: &'static str, alert: &[&str]) -> (Alert, Leg) {
    (Alert { routes: texts(alert), ..Alert::default() }, Leg { route, short, ..LEG })
}

/// An alert of the leg's route with this text, for a leg of this line.
fn about(short: &'static str, text: &str) -> (Alert, Leg) {
    (Alert { routes: texts(&["f:R12"]), ..said(text) }, Leg { short, ..LEG })
}

/// An alert of the leg's trip with this text, for a leg of this mode.
fn of_mode(mode: &'static str, text: &str) -> (Alert, Leg) {
    (Alert { trips: texts(&["f:1"]), ..said(text) }, Leg { mode, ..LEG })
}

fn modes_and_ids() -> Vec<(Alert, Leg)> {
    vec![
        of_mode("Metro", "Info trafic routier"),
        of_mode("BUS", "Info trafic routier"),
        of_mode("RER", "trafic normal"),
        of_mode("RER", "arret"),
        of_mode("RER", "arret deplace"),
        of_mode("RER", "arret deplace, circulation"),
        of_mode("RER", "arret DÉPLACÉ, circulation"),
        of_mode("RER", "arret deplacX, circulation"),
        of_mode("RER", "arret deplacX, circulatiox"),
        on_trip("f:1@20260101", &["f:1@20260101"]),
        on_trip("f:1@20260101", &["f:1"]),
        on_trip("f:1@20260101", &["f:1@20260102"]),
        on_trip("f:1", &["g:f:1"]),
        on_trip("f:1", &["f:2", "f1"]),
        on_trip("@x", &["@x"]),
        on_trip("f:1", &[]),
        on_stops("f:A", "f:B", &["f:A"]),
        on_stops("f:A", "f:B", &["f:C", "f:B"]),
        on_stops("f:A", "f:B", &["g/x:a:"]),
        on_stops("f:A", "f:B", &["g:b"]),
        on_stops("", "f:B", &["", "f:B"]),
        on_stops("f:A", "", &["", "f:B"]),
        on_stops("f:A:--", "f:B", &["g:a"]),
        on_stops("--", "::", &["##", "::"]),
        on_stops("--", "f:B", &["##"]),
    ]
}

fn routes() -> Vec<(Alert, Leg)> {
    vec![
        on_route("f:R12", "5", &["f:R12"]),
        on_route("", "5", &["f:R12"]),
        on_route("f:R12", "", &["", "f:R13"]),
        on_route("f:C01375", "5", &["STIF:Line::c01375:"]),
        on_route("f:C01375", "5", &["f:C01376"]),
        on_route("f:C01375", "5", &["f:R12"]),
        on_route("f:ABC", "5", &["g/abc:"]),
        on_route("f:AB", "5", &["g:AB"]),
        on_route("f:ABC", "5", &["g:ABD"]),
        on_route("::", "5", &["f:R12"]),
        on_route("f:::", "5", &[":/"]),
        on_route("f:C1375", "5", &["g:c1375"]),
        on_route("f:C137", "5", &["g:c138"]),
        on_route("f:C0137500", "5", &["g:c0137500"]),
        on_route("f:C01375001", "5", &["g:x:C01375002"]),
        on_route("f:D01375", "5", &["g:D01376"]),
        on_route("f:C0137x", "5", &["g:C0137y"]),
        on_route("f:R12", "5", &["g:5"]),
        on_route("f:R12", " n12 ", &["g:N12"]),
        on_route("f:R12", "5", &["g: "]),
        on_route("f:R12", "LIGNE", &["g:ligne"]),
        on_route("f:R12", "C01375", &["g:C01375"]),
        on_route("f:R12", "5", &["g:C01375"]),
        on_route("f:C01376", "5", &["g:C01375"]),
        on_route("f:C99999", "5", &["g:C01375"]),
        on_route("f:R12", "6", &["g:C01375"]),
        on_route("f:R12", "5", &["g:C99999"]),
        on_route("f:R12", " ", &["g:5"]),
    ]
}

fn text_tests() -> Vec<(Alert, Leg)> {
    vec![
        about("", "RER B"),
        about("5", "retard"),
        about("5", "RER B interrompu"),
        about("b", "RER B interrompu"),
        about("5", "saturation ligne 5"),
        about("5", "ligne 5 : saturation, RER B"),
        about("5", "RER B interrompu, saturation ligne 5"),
        about("5", "RER B, ligne 5 fluide"),
        about("4", "RER B interrompu, ligne 4"),
        about("5", "prenez la ligne 4, saturation ligne 5"),
        about("5", "METRO 4 : reportez-vous ligne 5"),
    ]
}

/// Each case is the original's answer. Where a side of a test is taken by none, that is a failure.
fn branches() -> Vec<Equation> {
    let mut met = Met::default();
    let mut cases = Vec::new();
    for (alert, leg) in [modes_and_ids(), routes(), text_tests()].concat() {
        let Leg { trip, route, short, from, to, mode } = leg;
        let answer = alert_applies_to_leg_with_mode(&host::alert(&alert), trip, route, short, from, to, mode);
        assert_eq!(applies(&mut met, &alert, &leg), answer, "{alert:?} {trip} {route} {short} {from} {to}");
        let ids = [trip, route, short, from, to, mode].map(|id| id.literal()).join(" ");
        cases.push(equation("alert_applies_to_leg_with_mode", &[alert.literal(), ids], truth(answer)));
    }
    let (left, sides) = met.left();
    println!("alert tests: sides taken {} of {sides}", sides - left.len());
    if !left.is_empty() {
        println!("not taken: {left:#?}");
        std::process::exit(1);
    }
    cases
}
