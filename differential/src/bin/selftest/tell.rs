//! Answers in a line of text, times as distances from the scheduled ones.
use differential::form::{Form, Text};
use differential::host::Original;
use differential::panel::{Answer, Call, Panel};
use differential::papers::{Card, Leg, Transit, STATUSES};
use differential::rt::overlay::{StopTimeRt, TripRt};

/// The answer to the last of the calls on a fresh overlay.
pub fn last(calls: &[Call]) -> String {
    let mut panel = Panel::default();
    let answers: Vec<_> = calls.iter().map(|call| panel.run(call)).collect();
    match answers.last().expect("a call") {
        None => "no answer".into(),
        Some(Answer::Refused(number)) => format!("refused {number}"),
        Some(Answer::Written) => written(&panel.original),
        Some(Answer::Card(bytes)) => card(&Card::of(bytes).expect("a card")),
        Some(Answer::Report(report)) => {
            format!(
                "version {}, count {}, timestamp {}",
                report.version,
                report.count,
                or_none(report.timestamp)
            )
        }
    }
}

fn or_none<T: ToString>(value: Option<T>) -> String {
    value.map_or("-".into(), |value| value.to_string())
}

fn joined(parts: impl Iterator<Item = String>) -> String {
    parts.collect::<Vec<_>>().join(" ")
}

/// The trips and vehicles of all feeds.
fn written(original: &Original) -> String {
    let feeds = original.0.feeds.iter().map(|(id, feed)| {
        let trips = feed.trips.iter().map(|(key, record)| format!("{key}={}", trip(record)));
        let vehicles = feed.vehicles.keys().map(|key| format!("vehicle {key}"));
        format!("{id}[{}]", joined(trips.chain(vehicles)))
    });
    joined(feeds)
}

fn trip(record: &TripRt) -> String {
    let updates =
        record.stop_updates.iter().map(|(sequence, update)| format!(" {sequence}:{}", stop(update)));
    let cancelled = if record.canceled { " cancelled" } else { "" };
    format!("({}{cancelled}{})", or_none(record.delay), updates.collect::<String>())
}

/// Stop id, arrival delay and time, departure delay and time.
fn stop(update: &StopTimeRt) -> String {
    let skipped = if update.skipped { "/skipped" } else { "" };
    let numbers = [
        or_none(update.arrival_delay),
        or_none(update.arrival_time),
        or_none(update.departure_delay),
        or_none(update.departure_time),
    ];
    format!("{}/{}{skipped}", or_none(update.stop_id.clone()), numbers.join("/"))
}

fn card(card: &Card) -> String {
    let legs = card.legs.iter().map(|leg| match leg {
        Leg::Walk(_) => " walk".into(),
        Leg::Transit(leg) => transit(leg),
    });
    let headers = card.headers.iter().map(|Text(header)| format!(" \"{}\"", String::from_utf8_lossy(header)));
    let status = STATUSES[card.status.0 as usize];
    format!("{status}{}{}", legs.collect::<String>(), headers.collect::<String>())
}

/// Departure and arrival as seconds after the scheduled ones with their delays; the same of middles.
fn transit(leg: &Transit) -> String {
    let event =
        |time: Option<i64>, scheduled: i64| time.map_or("-".into(), |time| format!("{:+}", time - scheduled));
    let middles = leg.middles.iter().map(|middle| {
        let arrival = event(middle.realtime_arrival, middle.scheduled_arrival);
        format!(" via {arrival} {}", event(middle.realtime_departure, middle.scheduled_departure))
    });
    let departure = event(leg.realtime_departure, leg.scheduled_departure);
    let arrival = event(leg.realtime_arrival, leg.scheduled_arrival);
    let delays = (or_none(leg.departure_delay), or_none(leg.arrival_delay));
    let cancelled = if leg.cancelled { " cancelled" } else { "" };
    let vehicle = leg.updated.map_or(String::new(), |updated| format!(" vehicle {updated}"));
    format!(
        " {departure}/{} {arrival}/{}{cancelled}{vehicle}{}",
        delays.0,
        delays.1,
        middles.collect::<String>()
    )
}
