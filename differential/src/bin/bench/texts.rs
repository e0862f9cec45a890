//! The port's test of an alert's texts beside the original's, run in turn: usual alerts, and the longest texts, made of
//! what the tables look for. Each time is the best of many runs; the answers are compared too.
use differential::gens::alert_text;
use differential::host;
use differential::papers::Alert;
use differential::port::text_fits;
use differential::random::Random;
use differential::routing::journey::parts::alert_text_compatible_with_leg;
use std::hint::black_box;
use std::time::Instant;

const HEADER: usize = 512;
const LONGEST: usize = HEADER + 2048;
const ROOM: usize = LONGEST + 66;
const TURNS: u32 = 5;

/// All 32 lines.
const NAMES: &str =
    "RER A RER B RER C RER D RER E METRO 1 METRO 2 METRO 3 METRO 4 METRO 5 METRO 6 METRO 7 METRO 8 \
    METRO 9 METRO 10 METRO 11 METRO 12 METRO 13 METRO 14 TRAM T1 T2 T3 T4 T5 T6 T7 T8 T9 T10 T11 T12 T13 ";
pub const PROSE: &str =
    "Suite à un incident d'exploitation à la station Châtelet, le trafic est perturbé. Les voyageurs \
    sont invités à prendre leurs dispositions. Reprise estimée à 18 heures. ";
const UNITS: &[&str] = &[
    PROSE,
    " ",
    "1 ",
    "RER",
    "RERERE",
    "LIGNE ",
    "LIGNES ",
    "METRO ",
    "T1",
    "T ",
    "E",
    "ET ",
    "ET 1",
    "L",
    "M",
    "R",
    "I",
    "INCIDENT LIGNE ",
    "LIGNE 1 ",
    "LIGNE 1x",
    "A1 ",
    "U",
    "REPORTE",
    " 1x",
    "é",
    "à b ",
    "T1T2T3",
    "PRIVILEGI",
    "CORRESPONDANCE ",
    "TRA",
    "TRAM 1",
    " 5;",
    "LIGNE 5;",
    "x",
];
const SHORTS: &[&str] = &["5", "1", "E", "T1", "T13", "B"];

fn micros(mut call: impl FnMut() -> bool) -> f64 {
    let start = Instant::now();
    for _ in 0..TURNS {
        black_box(call());
    }
    start.elapsed().as_secs_f64() * 1e6 / f64::from(TURNS)
}

/// Microseconds of the port and of the original.
fn compare(runs: usize, header: &str, description: &str, short: &str) -> [f64; 2] {
    let (trips, routes, stops) = Default::default();
    let alert = Alert {
        header: Some(header.into()),
        description: Some(description.into()),
        cause: None,
        trips,
        routes,
        stops,
    };
    let alert = host::alert(&alert);
    let mut out = [0; ROOM];
    let mut port =
        || text_fits(black_box(&mut out), black_box(header), black_box(description), black_box(short));
    let original = || alert_text_compatible_with_leg(black_box(&alert), black_box(short));
    assert_eq!(port(), original(), "{header} {description} for {short}");
    (0..runs).fold([f64::MAX; 2], |[a, b], _| [a.min(micros(&mut port)), b.min(micros(original))])
}

fn told(name: &str, [port, original]: [f64; 2]) -> f64 {
    println!("| {name} | {port:.2} | {original:.2} | {:.2} |", port / original);
    port / original
}

fn usual() {
    println!("| texts of an alert | port, us | original, us | port / original |\n|---|---|---|---|");
    let lines = [
        ("4", "Métro 4"),
        ("14", "Métro 14"),
        ("B", "RER B"),
        ("5", "RER D"),
        ("T3a", "Tram T3a"),
        ("5", "Gare"),
    ];
    for (short, line) in lines {
        told(
            &format!("{line}, for {short}"),
            compare(500, &format!("{line} : trafic perturbé"), PROSE, short),
        );
    }
    let advice = "Travaux. Reportez-vous sur les lignes 4 et 5. Saturation attendue sur les lignes 4 et 5.";
    told("advice", compare(500, "RER B et D interrompus", advice, "5"));
}

/// A text filled up to the most bytes, cut into header and description.
fn filled(front: &str, unit: &str, tail: &str) -> (String, String) {
    let cut = |mut text: String, most: usize| {
        while text.len() > most {
            text.pop();
        }
        text
    };
    let whole = cut(front.to_string() + &unit.repeat(LONGEST / unit.len()), LONGEST - tail.len()) + tail;
    let header = cut(whole.clone(), HEADER);
    let description = whole[header.len()..].to_string();
    (header, description)
}

/// Of the longest texts the one that takes the port longest, in header and description.
pub fn longest_text() -> (String, String) {
    let timed = |unit: &&str| {
        let (header, description) = filled("", unit, ". RER B LIGNE 5 LIGNE 1 UTILISEZ T1");
        let mut out = [0; ROOM];
        let took = (0..10).map(|_| micros(|| text_fits(&mut out, &header, &description, "5")));
        (took.fold(f64::MAX, f64::min), header, description)
    };
    let texts = UNITS.iter().map(timed).filter(|(_, header, _)| header.is_ascii());
    let (_, header, description) = texts.max_by(|one, other| one.0.total_cmp(&other.0)).expect("a text");
    (header, description)
}

/// The ratio of the slowest of the longest texts.
fn longest() -> f64 {
    let mut worst = (0.0, String::new(), [0.0; 2]);
    let mut look = |name: String, (header, description): (String, String), short: &str| {
        let times = compare(60, &header, &description, short);
        if times[0] / times[1] > worst.0 {
            worst = (times[0] / times[1], format!("{name}, for {short}"), times);
        }
    };
    let mut random = Random::new(11);
    for short in SHORTS {
        for unit in UNITS {
            look(
                format!("{unit:?} and a tail"),
                filled("", unit, ". RER B LIGNE 5 LIGNE 1 UTILISEZ T1"),
                short,
            );
            look(format!("{unit:?}"), filled("", unit, ""), short);
            look(format!("all lines, {unit:?}"), filled(NAMES, unit, ""), short);
        }
        for turn in 0..20 {
            let words = alert_text(&mut random, 400);
            look(format!("random words {turn}"), filled("", &(words + " x"), ""), short);
        }
    }
    told(&format!("the slowest of the longest texts: {}", worst.1), worst.2)
}

/// Whether no text takes more than some times what the original takes.
pub fn texts(most: f64) -> bool {
    usual();
    longest() <= most
}
