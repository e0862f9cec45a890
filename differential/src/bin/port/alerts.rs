//! Alerts and legs beside the original's `alert_applies_to_leg_with_mode` and its label. The texts are made of the rows
//! of the original's tables, at every distance from each other that a window tells apart, and of near misses.
use differential::form::{Form, Reader, Text};
use differential::gens::{alert, alert_text, damaged, transit};
use differential::host;
use differential::papers::{Alert, Transit};
use differential::port::{applies, label, Leg};
use differential::random::Random;
use differential::routing::journey::alert_applies_to_leg_with_mode;
use differential::routing::journey::parts::fold_alert_blob;
use differential::tables::*;
use std::collections::BTreeSet;
use std::panic::{catch_unwind, set_hook, take_hook, AssertUnwindSafe};

/// What an alert's texts are written into.
const ROOM: usize = 2_626;
const HEADER: usize = 512;
const DESCRIPTION: usize = 2_048;
const LABEL: usize = 120;

const ALL_ROWS: &[&[Around]] = &[LETTER_ROWS, NUMBER_ROWS, BARE_ROWS, NEEDLE_ROWS, PRIMARY_ROWS];
const WORDS: &[&[&str]] =
    &[MARKERS, BESIDE_NUMERAL, BESIDE_ADVICE, BEGINNINGS, ROAD, MOVED, TRAFFIC, &["ARRET"]];

fn line(random: &mut Random) -> &'static str {
    let class = random.pick(&[LETTERS, NUMERALS, TRAMS, &["5"], &["B"]]);
    random.pick(class)
}

/// The text with some letters changed, or in lower case, once in a while; it stays printable.
fn misspelt(random: &mut Random, text: String) -> String {
    match random.below(6) {
        0 => text.to_lowercase(),
        1 => damaged(random, text.into_bytes()).iter().map(|byte| char::from(32 + byte % 95)).collect(),
        _ => text,
    }
}

/// The text with accents besides.
fn varied(random: &mut Random, text: String) -> String {
    if random.once_in(4) {
        return text.chars().map(|letter| accented(random, letter)).collect();
    }
    misspelt(random, text)
}

fn accented(random: &mut Random, letter: char) -> char {
    let letters = ACCENTS.iter().find(|(plain, _)| *plain == letter).map(|(_, letters)| *letters);
    let Some(letters) = letters.filter(|_| random.once_in(2)) else {
        return letter;
    };
    let letters: Vec<char> = letters.chars().collect();
    random.pick(&letters)
}

fn piece(random: &mut Random) -> String {
    match random.below(10) {
        0..=3 => {
            let rows = random.pick(ALL_ROWS);
            let row = random.pick(rows);
            around(&row, line(random))
        }
        4 | 5 => {
            let words = random.pick(WORDS);
            random.pick(words).to_string()
        }
        6 => random
            .pick(&["-", "X", " ", "é", "ñ"])
            .repeat(random.pick(&[13, 14, 15, 23, 24, 25, 37, 38, 39, 48, 49])),
        7 => alert_text(random, 3),
        _ => " ".into(),
    }
}

fn text(random: &mut Random, most: usize, pieces: usize) -> Text {
    let mut text: String = random.list(pieces, piece).concat();
    text = varied(random, text);
    while text.len() > most {
        text.pop();
    }
    text.as_str().into()
}

/// An alert that mostly hits the leg's route alone, so that its texts decide.
fn pair(random: &mut Random) -> (Alert, Transit) {
    let pieces = random.pick(&[3, 6, 6, 40]);
    let mut leg = transit(random);
    let mut alert = alert(random);
    alert.header = random.maybe(|random| text(random, HEADER, pieces));
    alert.description = random.maybe(|random| text(random, DESCRIPTION, pieces));
    if random.once_in(3) {
        alert.cause = Some(text(random, 64, 2));
    }
    if !random.once_in(4) {
        alert.trips.clear();
        alert.stops.clear();
        alert.routes.push(leg.route.clone());
        let name = line(random).to_string();
        let name = random.pick(&["", " "]).to_string() + &misspelt(random, name);
        leg.short_name = name.as_str().into();
    }
    if random.once_in(3) {
        let mode = random.pick(MODES).to_string();
        leg.mode = misspelt(random, mode).as_str().into();
    }
    if random.once_in(8) {
        let product = random.pick(PRODUCTS);
        leg.route = product.0.into();
        leg.short_name = product.1.into();
        alert.routes = vec![random.pick(PRODUCTS).0.into(), format!("x:{}", product.0).as_str().into()];
    }
    (alert, leg)
}

/// The rows of the tables that an alert and a leg hit.
fn rows(alert: &Alert, leg: &Transit, hit: &mut BTreeSet<String>) {
    let string = |text: &Option<Text>| text.as_ref().map(Text::string).unwrap_or_default();
    let joined = [string(&alert.header), string(&alert.description)].join(" ");
    hit.extend(folded(&joined).iter().map(|letter| format!("letter {letter}")));
    let blob = fold_alert_blob(&joined);
    for name in [LETTERS, NUMERALS, TRAMS].concat() {
        hit.extend(line_rows(&blob, name).iter().map(|row| format!("line {row}")));
    }
    hit.extend(secondary(&blob, "5").iter().map(|row| format!("advice {row}")));
    for name in ["5", "B"] {
        hit.extend(primary(&blob, name).iter().map(|row| format!("subject {row}")));
    }
    let all = [joined, string(&alert.cause)].join(" ").to_ascii_uppercase();
    hit.extend(road(&all).iter().map(|row| format!("road {row}")));
    let is = |known: &str, text: &Text| text.string().to_ascii_uppercase() == known;
    hit.extend(MODES.iter().filter(|mode| is(mode, &leg.mode)).map(|mode| format!("mode {mode}")));
    hit.extend(
        PRODUCTS
            .iter()
            .filter(|product| is(product.0, &leg.route))
            .map(|product| format!("product {}", product.0)),
    );
}

/// How many rows there are.
fn all_rows() -> usize {
    let letters: usize = ACCENTS.iter().map(|(_, letters)| letters.chars().count()).sum();
    let numerals = NUMERALS.len() * (NUMBER_ROWS.len() + BESIDE_NUMERAL.len() * (BARE_ROWS.len() + 1));
    let lines = LETTERS.len() * LETTER_ROWS.len() + numerals + TRAMS.len() * 2;
    let advice = MARKERS.len() * (NEEDLE_ROWS.len() + BESIDE_ADVICE.len());
    let subjects = 2 * (PRIMARY_ROWS.len() + BEGINNINGS.len());
    letters
        + lines
        + advice
        + subjects
        + ROAD.len()
        + MOVED.len() * TRAFFIC.len()
        + MODES.len()
        + PRODUCTS.len()
}

/// What the original makes of an applied alert's texts; an empty text is no label.
fn expected_label(alert: &Alert) -> String {
    match &alert.header {
        Some(header) => header.string(),
        None => {
            alert.description.as_ref().map(Text::string).unwrap_or_default().chars().take(LABEL).collect()
        }
    }
}

#[derive(Default)]
struct Tally {
    yes: usize,
    panics: usize,
    broken: usize,
    differ: usize,
    rows: BTreeSet<String>,
}

fn compare(alert: &Alert, leg: &Transit, tally: &mut Tally) {
    let [trip, route, short, from, to, mode] =
        [&leg.trip, &leg.route, &leg.short_name, &leg.from, &leg.to, &leg.mode].map(Text::string);
    let theirs = host::alert(alert);
    let original = catch_unwind(AssertUnwindSafe(|| {
        alert_applies_to_leg_with_mode(&theirs, &trip, &route, &short, &from, &to, &mode)
    }));
    let bytes = alert.written();
    let leg_texts = Leg { trip: &trip, route: &route, short: &short, from: &from, to: &to, mode: &mode };
    let port = applies(&mut [0; ROOM], &bytes, &leg_texts);
    let labelled = label(&bytes) == expected_label(alert).as_bytes();
    let _ = catch_unwind(AssertUnwindSafe(|| rows(alert, leg, &mut tally.rows)));
    match original {
        Ok(yes) => {
            tally.yes += usize::from(yes);
            if port != u32::from(yes) || !labelled {
                tally.differ += 1;
                println!("port: {port}, the original {yes}, label {labelled}: {alert:?} {leg:?}");
            }
        }
        Err(_) => {
            tally.panics += 1;
            tally.differ += usize::from(port > 1 || !labelled);
        }
    }
}

/// Bytes that hold no alert: 2, and no label.
fn compare_broken(bytes: &[u8], tally: &mut Tally) {
    if Alert::read(&mut Reader(bytes)).is_some() {
        return;
    }
    let none = Leg { trip: "", route: "", short: "", from: "", to: "", mode: "" };
    tally.broken += 1;
    tally.differ += usize::from(applies(&mut [0; ROOM], bytes, &none) != 2 || !label(bytes).is_empty());
}

/// How many are answered otherwise, and how many rows no pair hits.
pub fn run(seed: u64, pairs: usize) -> usize {
    let mut random = Random::new(seed);
    let mut tally = Tally::default();
    let hook = take_hook();
    set_hook(Box::new(|_| ()));
    for _ in 0..pairs {
        let (alert, leg) = pair(&mut random);
        compare(&alert, &leg, &mut tally);
        compare_broken(&damaged(&mut random, alert.written()), &mut tally);
    }
    set_hook(hook);
    let (hit, all) = (tally.rows.len(), all_rows());
    println!(
        "port: {pairs} alerts and legs, seed {seed}: {} apply, {} make the original panic; {} damaged alerts; {} \
        otherwise; rows hit {hit} of {all}",
        tally.yes, tally.panics, tally.broken, tally.differ
    );
    tally.differ + all.saturating_sub(hit)
}
