//! Alerts straight from messages: the oracle beside what document 02 says in small cases, prost beside the second
//! reading, and the original's `apply_service_alerts` where it has to agree and where it doesn't.
use crate::{tell::last, Tally};
use differential::feed_alerts::rows::rows;
use differential::feed_alerts::{is_common, is_read, sheet};
use differential::form::{Form, Text};
use differential::gens::{alert_message, common_alert_message, damaged, gained_alerts};
use differential::host::Original;
use differential::layout;
use differential::messages::alerts::*;
use differential::messages::{
    header, incrementality, timestamp, trip as trip_of_update, trip_update, DIFFERENTIAL,
};
use differential::papers::Alert;
use differential::questions::LONGEST_INPUT;
use differential::random::Random;
use differential::samples::{message_call, NOON};
use differential::tree::{tree, Type};
use differential::wire::{delimited, varint};
use std::collections::BTreeMap;

const MESSAGES: usize = 40_000;
const COMMON: usize = 10_000;

pub fn run(tally: &mut Tally) {
    for row in rows() {
        let told = |answer: Result<Vec<u8>, u8>| match answer {
            Ok(sheet) if sheet.len() <= 40 => hex(&sheet),
            Ok(sheet) => format!("a sheet of {} bytes, {}", sheet.len(), sum(&sheet)),
            Err(number) => format!("refused {number}"),
        };
        let answer = sheet(&row.feed, &row.message).map(|sheet| sheet.written());
        tally.case("alerts of a message", &row.what, &told(answer), &told(row.due));
    }
    passed_over(tally);
    at_random(tally);
    common(tally);
    apart(tally);
}

/// The trip call doesn't list alerts.
fn passed_over(tally: &mut Tally) {
    let named = trip_update(&[trip_of_update(&[trip_id("1")])]);
    let message = message_call(&[entity(&[delimited(5, [0xff]), named, varint(5, 7)])]);
    tally.case("trips of a message", "broken alerts beside a trip", &last(&[message]), "f[f:1=(-)]");
}

fn hex(bytes: &[u8]) -> String {
    bytes.iter().map(|byte| format!("{byte:02x}")).collect::<Vec<_>>().join(" ")
}

/// FNV-1a, so that two long sheets are told apart in a line.
fn sum(bytes: &[u8]) -> String {
    let fold = |sum: u64, byte: &u8| (sum ^ u64::from(*byte)).wrapping_mul(0x100_0000_01b3);
    format!("{:016x}", bytes.iter().fold(0xcbf2_9ce4_8422_2325, fold))
}

/// Prost takes what the second reading does, where groups go deeper; fields added change no sheet.
fn at_random(tally: &mut Tally) {
    const DEEPER: usize = 90;
    let mut random = Random::new(4);
    let (mut accepted, mut refused, mut differ) = (0, BTreeMap::new(), 0);
    for turn in 0..MESSAGES {
        let whole = alert_message(&mut random, b"f");
        let message = if turn % 2 == 0 { whole } else { damaged(&mut random, whole) };
        let expected = tree(Type::AlertMessage, &message, DEEPER).is_some();
        let answer = sheet(b"f", &message);
        let more = gained_alerts(&mut random, &message);
        let same = more.len() > LONGEST_INPUT || sheet(b"f", &more) == answer;
        differ += usize::from(is_read(&message) != expected || !same);
        match answer {
            Ok(_) => accepted += 1,
            Err(number) => *refused.entry(number).or_insert(0) += 1,
        }
    }
    let input =
        format!("{MESSAGES} random ones, half of them damaged: {accepted} accepted, refused {refused:?}");
    tally.case("alerts of a message", &input, &format!("{differ} otherwise"), "0 otherwise");
}

/// The alerts that the original has of a message, on a feed that has none.
fn original(message: &[u8]) -> Vec<Alert> {
    let mut original = Original::default();
    assert!(original.service_alerts("f", message), "prost refuses a message of its own schema");
    original.feed("f").alerts.iter().map(layout::alert).collect()
}

fn common(tally: &mut Tally) {
    let mut random = Random::new(5);
    let (mut compared, mut alerts, mut differ) = (0, 0, 0);
    for _ in 0..COMMON {
        let message = common_alert_message(&mut random, b"f");
        let Ok(sheet) = sheet(b"f", &message) else { continue };
        if is_common(&message) {
            compared += 1;
            alerts += sheet.alerts.len();
            differ += usize::from(original(&message) != sheet.alerts);
        }
    }
    let input = format!("{compared} messages of {alerts} alerts beside apply_service_alerts");
    tally.case("alerts of a message", &input, &format!("{differ} otherwise"), "0 otherwise");
}

/// Where the original differs (docs/DIFFERENCES.md): what this call gives, and what the original has.
fn apart(tally: &mut Tally) {
    let mut case = |what: &str, message: &[Vec<u8>], ours: Alert, theirs: Alert| {
        let message = message.concat();
        let sheet = sheet(b"f", &message).expect("a message that is taken");
        let answer = format!("{:?}; the original {:?}", sheet.alerts, original(&message));
        tally.case(
            "alerts of a message",
            what,
            &answer,
            &format!("{:?}; the original {:?}", [ours], [theirs]),
        );
    };
    let headed = |text: Option<&str>| Alert { header: text.map(Text::from), ..Alert::default() };
    let said = |of: &str, tongue: &str| translation(&[text(of), language(tongue)]);
    let one = |fields: &[Vec<u8>]| entity(&[alert(fields)]);
    let tongues = one(&[header_text(&[said("A", "de"), said("B", "fr")])]);
    case("German before French", &[tongues], headed(Some("A")), headed(Some("B")));
    let empty = one(&[header_text(&[said("", "fr"), said("B", "de")])]);
    case("an empty text before another", &[empty], headed(Some("")), headed(Some("B")));
    let without = one(&[header_text(&[translation(&[language("fr")]), said("B", "de")])]);
    case("no text before another", &[without], headed(None), headed(Some("B")));
    let caused = one(&[varint(6, 4)]);
    // The schema here has a name for every cause that is empty.
    case("a cause", &[caused], headed(None), Alert { cause: Some("".into()), ..Alert::default() });
    appended(tally);
}

/// A DIFFERENTIAL message adds to the original's alerts; a sheet replaces them. Its header timestamp is kept there.
fn appended(tally: &mut Tally) {
    let of = |of: &str| entity(&[alert(&[header_text(&[translation(&[text(of)])])])]);
    let about = header(&[incrementality(DIFFERENTIAL), timestamp(NOON)]);
    let messages = [of("A"), [about, of("B")].concat()];
    let [mut theirs, mut ours] = [Original::default(), Original::default()];
    for message in &messages {
        theirs.service_alerts("f", message);
        ours.alert_sheet("f", &sheet(b"f", message).expect("a message that is taken"));
    }
    let told = |mut original: Original| {
        let feed = original.feed("f");
        let alerts: Vec<_> =
            feed.alerts.iter().map(|alert| alert.header.clone().unwrap_or_default()).collect();
        format!("{alerts:?} at {:?}", feed.header_timestamp)
    };
    let expected = format!("[\"B\"] at None; the original [\"A\", \"B\"] at Some({NOON})");
    let answer = format!("{}; the original {}", told(ours), told(theirs));
    tally.case("alerts of a message", "a DIFFERENTIAL message after another", &answer, &expected);
}
