//! Alerts straight from messages: the compiled call beside prost and a plain writer of sheets, byte for byte; again
//! with fields added; sent in as a sheet; and beside the original's `apply_service_alerts` where both have to agree.
use differential::feed_alerts::rows::rows;
use differential::feed_alerts::{is_common, sheet, SHEET};
use differential::form::Form;
use differential::gens::{alert_message, common_alert_message, damaged, gained_alerts, many_alerts};
use differential::host::Original;
use differential::layout::{alert, held, zeros};
use differential::panel::Call;
use differential::papers::AlertSheet;
use differential::port::{feed_alerts, sheet_end};
use differential::questions::LONGEST_INPUT;
use differential::random::Random;
use differential::states::States;
use differential::turns::OVERLAY;
use std::collections::BTreeMap;

const RANDOM: usize = 20_000;
const MANY: usize = 300;
const COMMON: usize = 3_000;
const FEEDS: &[&str] = &["f", "f", "f", "g", "a@b", "sixteen_bytes_id"];

/// Overlays that sheets are sent in on: for most of them, and for the longest.
const SMALL: usize = 64 << 10;
const LARGE: usize = 2 << 20;
/// A sheet of so many bytes has room on a small one.
const SHORT: usize = SMALL - 64;

type Mismatch = &'static str;
type Called = fn(&[u8], &[u8], &mut [u8]) -> u32;

/// How many answers are otherwise, and how many faults put around the call are not found.
pub fn run(seed: u64) -> usize {
    let mut comparison = Comparison::of(feed_alerts);
    comparison.rows();
    comparison.at_random(seed);
    comparison.print();
    comparison.differ + lengths() + published() + faults(seed)
}

struct Comparison {
    call: Called,
    out: Vec<u8>,
    sent: States,
    random: Random,
    messages: usize,
    damaged: usize,
    refused: BTreeMap<u8, usize>,
    alerts: usize,
    gained: usize,
    common: usize,
    differ: usize,
    smallest: Option<(Mismatch, Vec<u8>, Vec<u8>)>,
}

impl Comparison {
    fn of(call: Called) -> Self {
        Comparison {
            call,
            out: vec![0; SHEET],
            sent: States::of(SMALL),
            random: Random::new(1),
            messages: 0,
            damaged: 0,
            refused: BTreeMap::new(),
            alerts: 0,
            gained: 0,
            common: 0,
            differ: 0,
            smallest: None,
        }
    }

    fn rows(&mut self) {
        for row in rows() {
            self.message(&row.feed, &row.message, false);
        }
    }

    /// Messages half of which are damaged; such that are near the bounds of question 7; and such that the original
    /// reads alike.
    fn at_random(&mut self, seed: u64) {
        self.random = Random::new(seed);
        for turn in 0..RANDOM + MANY + COMMON {
            let feed = self.random.pick(FEEDS).as_bytes();
            let make = match turn {
                0..RANDOM => alert_message,
                RANDOM.. if turn < RANDOM + MANY => many_alerts,
                _ => common_alert_message,
            };
            let message = make(&mut self.random, feed);
            let whole = turn >= RANDOM || self.random.once_in(2);
            self.damaged += usize::from(!whole);
            let message = if whole { message } else { damaged(&mut self.random, message) };
            self.message(feed, &message, turn >= RANDOM + MANY);
        }
    }

    /// With the original beside it, where the message has no field that this call passes over and the original doesn't.
    fn message(&mut self, feed: &[u8], message: &[u8], beside: bool) {
        let due = sheet(feed, message);
        self.messages += 1;
        match &due {
            Ok(sheet) => self.alerts += sheet.alerts.len(),
            Err(number) => *self.refused.entry(*number).or_insert(0) += 1,
        }
        let compared = self.compare(feed, message, &due, beside);
        self.otherwise(compared, feed, message);
        let more = gained_alerts(&mut self.random, message);
        if more != message && more.len() <= LONGEST_INPUT {
            self.gained += 1;
            let compared = self.is_given(feed, &more, &due).map_err(|_| "another answer with fields added");
            self.otherwise(compared, feed, &more);
        }
    }

    fn otherwise(&mut self, compared: Result<(), Mismatch>, feed: &[u8], message: &[u8]) {
        let Err(what) = compared else { return };
        self.differ += 1;
        if self.smallest.as_ref().is_none_or(|(_, _, other)| message.len() < other.len()) {
            self.smallest = Some((what, feed.into(), message.into()));
        }
    }

    fn compare(
        &mut self,
        feed: &[u8],
        message: &[u8],
        due: &Result<AlertSheet, u8>,
        beside: bool,
    ) -> Result<(), Mismatch> {
        self.is_given(feed, message, due)?;
        let Ok(sheet) = due else { return Ok(()) };
        self.is_sent_in(feed, sheet)?;
        if beside && is_common(message) {
            self.common += 1;
            is_original(feed, message, sheet)?;
        }
        Ok(())
    }

    /// Number, sheet, zeros behind it and its end, over an output that holds other bytes.
    fn is_given(
        &mut self,
        feed: &[u8],
        message: &[u8],
        due: &Result<AlertSheet, u8>,
    ) -> Result<(), Mismatch> {
        spoil(&mut self.out);
        let number = (self.call)(feed, message, &mut self.out);
        let out = &self.out;
        match due {
            Err(due) if number != u32::from(*due) => Err("another number"),
            Err(_) if !zeros(out) => Err("a refused call's output is not zeros"),
            Err(_) => Ok(()),
            Ok(_) if number != 0 => Err("another number"),
            Ok(sheet) => {
                let written = sheet.written();
                if !out.starts_with(&written) || !zeros(&out[written.len()..]) {
                    return Err("another sheet");
                }
                (sheet_end(out) == Some(written.len())).then_some(()).ok_or("another end")
            }
        }
    }

    /// The output, cut at its end, is taken by the alert sheet's call and read as the same alerts.
    fn is_sent_in(&mut self, feed: &[u8], sheet: &AlertSheet) -> Result<(), Mismatch> {
        let end = sheet_end(&self.out).ok_or("no end")?;
        let bytes = &self.out[..end];
        if end <= SHORT {
            return is_taken(&mut self.sent, feed, bytes, sheet);
        }
        is_taken(&mut States::of(LARGE), feed, bytes, sheet)
    }

    fn print(&self) {
        let Comparison { messages, damaged, refused, alerts, gained, common, differ, .. } = self;
        let accepted = messages - refused.values().sum::<usize>();
        println!(
            "port: {messages} messages with alerts, {damaged} of them damaged: {accepted} accepted with {alerts} \
             alerts, refused {refused:?}; {gained} again with fields added, {common} beside the original; {differ} \
             otherwise"
        );
        if let Some((what, feed, message)) = &self.smallest {
            println!("the shortest: {what}, feed {}, message {}", feed.escape_ascii(), hex(message));
        }
    }
}

/// Other bytes than zeros: where sheets stand, and here and there behind.
fn spoil(out: &mut [u8]) {
    let front = out.len().min(16 << 10);
    out[..front].fill(0xa5);
    out.iter_mut().step_by(60_007).for_each(|byte| *byte = 0xa5);
    out.iter_mut().rev().take(1).for_each(|byte| *byte = 0xa5);
}

/// Whether a sheet, sent in on a fresh overlay, is taken and read as these alerts.
fn is_taken(states: &mut States, feed: &[u8], bytes: &[u8], sheet: &AlertSheet) -> Result<(), Mismatch> {
    assert_eq!(states.run(&Call::Fresh), Ok(0));
    let number = states.run(&Call::AlertSheet { feed: feed.into(), sheet: bytes.into() })?;
    let state = held(states.overlay()).expect("an overlay");
    let kept = state.feeds.iter().find(|state| state.id.0 == feed).map(|feed| &feed.alerts);
    (number == 0 && kept == Some(&sheet.alerts)).then_some(()).ok_or("sent in, it is not the same alerts")
}

fn is_original(feed: &[u8], message: &[u8], sheet: &AlertSheet) -> Result<(), Mismatch> {
    let feed = std::str::from_utf8(feed).expect("a judged feed id");
    let mut original = Original::default();
    let whole = original.service_alerts(feed, message);
    let same = original.feed(feed).alerts.iter().map(alert).eq(sheet.alerts.iter().cloned());
    (whole && same).then_some(()).ok_or("the original has other alerts")
}

/// Question 1 comes before all others.
fn lengths() -> usize {
    let broken = [0x0c];
    let lengths = [0, 1, SHEET - 1, SHEET + 1, 2 * SHEET];
    let differ = lengths.iter().flat_map(|length| [[].as_slice(), &broken].map(|message| (*length, message)));
    let differ = differ.filter(|(length, message)| {
        let mut out = vec![0xa5; *length];
        feed_alerts(b"f", message, &mut out) != 1 || !zeros(&out)
    });
    let differ = differ.count();
    println!("port: {} outputs of another length than a sheet's, {differ} otherwise", 2 * lengths.len());
    differ
}

/// Sheets sent in by the panel's own call: of no alert, of one, and of as many bytes as there may be.
fn published() -> usize {
    let chosen = ["no entity", "a trip, a route, a stop", "a sheet of 1,048,576 bytes"];
    let mut states = States::of_panel(OVERLAY);
    let mut out = vec![0; SHEET];
    let differ = rows().into_iter().filter(|row| chosen.contains(&row.what.as_str())).filter(|row| {
        let sheet = sheet(&row.feed, &row.message).expect("a sheet");
        let number = feed_alerts(&row.feed, &row.message, &mut out);
        let end = sheet_end(&out).unwrap_or(0);
        number != 0 || is_taken(&mut states, &row.feed, &out[..end], &sheet).is_err()
    });
    let differ = differ.count();
    println!("port: {} sheets of messages sent in at the published length, {differ} otherwise", chosen.len());
    differ
}

/// The sheet of an accepted call changed.
fn changed(number: u32, out: &mut [u8], change: impl FnOnce(&mut AlertSheet)) -> u32 {
    if let Some(mut sheet) =
        sheet_end(out).filter(|_| number == 0).and_then(|end| AlertSheet::of(&out[..end]))
    {
        change(&mut sheet);
        let written = sheet.written();
        out.fill(0);
        out.iter_mut().zip(&written).for_each(|(byte, written)| *byte = *written);
    }
    number
}

const FAULTS: &[(&str, Called)] = &[
    ("the form's number for the texts'", |feed, message, out| match feed_alerts(feed, message, out) {
        5 => 4,
        number => number,
    }),
    ("too long a sheet among too many", |feed, message, out| match feed_alerts(feed, message, out) {
        8 => 7,
        number => number,
    }),
    ("a refused call's output left", |feed, message, out| {
        let number = feed_alerts(feed, message, out);
        out[SHEET - 1] |= u8::from(number == 7);
        number
    }),
    ("a byte behind the sheet", |feed, message, out| {
        let number = feed_alerts(feed, message, out);
        out[SHEET - 1] |= u8::from(number == 0);
        number
    }),
    ("an alert lost", |feed, message, out| {
        changed(feed_alerts(feed, message, out), out, |sheet| drop(sheet.alerts.pop()))
    }),
    ("an id once only", |feed, message, out| {
        changed(feed_alerts(feed, message, out), out, |sheet| {
            sheet.alerts.iter_mut().for_each(|alert| alert.stops.dedup());
        })
    }),
    ("an empty text left out", |feed, message, out| {
        changed(feed_alerts(feed, message, out), out, |sheet| {
            sheet
                .alerts
                .iter_mut()
                .for_each(|alert| alert.header.take_if(|text| text.0.is_empty()).map_or((), drop));
        })
    }),
    ("a cause", |feed, message, out| {
        changed(feed_alerts(feed, message, out), out, |sheet| {
            sheet.alerts.iter_mut().for_each(|alert| alert.cause = Some("".into()));
        })
    }),
];

/// How many faults put around the call are not found.
fn faults(seed: u64) -> usize {
    const TRIED: usize = 300;
    let missed = FAULTS.iter().filter(|(_, call)| {
        let mut comparison = Comparison::of(*call);
        comparison.random = Random::new(seed);
        comparison.rows();
        for _ in 0..TRIED {
            let message = alert_message(&mut comparison.random, b"f");
            comparison.message(b"f", &message, false);
        }
        comparison.differ == 0
    });
    let missed: Vec<_> = missed.map(|(what, _)| what).collect();
    println!("port: {} faults put around the alerts of a message, not found: {missed:?}", FAULTS.len());
    missed.len()
}

fn hex(bytes: &[u8]) -> String {
    bytes.iter().map(|byte| format!("{byte:02x}")).collect()
}
