//! What each word of the command line does.
use crate::args::{Asked, Call, USAGE};
use crate::fault::{answer, Fault};
use crate::store::Store;
use crate::{input, json, panel};
use mipsuqal::{AlertSheet, Card, Form, Panel, Refusal, VehicleSheet};
use std::io::{IsTerminal, Write};
use std::path::Path;

pub fn run(asked: &Asked) -> Result<(), Fault> {
    match &asked.call {
        Call::Help => print(USAGE.as_bytes()),
        Call::Message { feed, file } => {
            let message = input::file(file)?;
            take(asked, "message", feed, |panel| panel.message(feed, &message))
        }
        Call::Alerts { feed, file } => {
            let sheet = input::form::<AlertSheet>(file)?;
            take(asked, "alerts", feed, |panel| panel.alert_sheet_bytes(feed, &sheet))
        }
        Call::AlertsMessage { feed, file } => {
            let message = input::file(file)?;
            take(asked, "alerts-message", feed, |panel| panel.alert_message(feed, &message))
        }
        Call::Vehicles { feed, file, clock } => {
            let sheet = input::form::<VehicleSheet>(file)?;
            take(asked, "vehicles", feed, |panel| panel.vehicle_sheet_bytes(feed, &sheet, *clock))
        }
        Call::Card { file } => card(asked, file),
        Call::Report { feed } => {
            let report =
                Store::panel(&asked.state)?.report(feed).map_err(|refusal| no("report", feed, refusal))?;
            show(asked, &report, &format!("{report}\n"))
        }
        Call::Records { trip } => records(asked, trip),
        Call::Explain { number } => explain(asked, *number),
        Call::Convert { kind, file } => match kind.as_str() {
            "card" => convert::<Card>(asked, file),
            "alerts" => convert::<AlertSheet>(asked, file),
            _ => convert::<VehicleSheet>(asked, file),
        },
        Call::Fresh => take(asked, "fresh", "", |panel| {
            panel.fresh();
            Ok(())
        }),
        Call::Panel { directory } => panel::run(asked, directory),
    }
}

fn print(bytes: &[u8]) -> Result<(), Fault> {
    let mut out = std::io::stdout();
    out.write_all(bytes).and_then(|()| out.flush()).map_err(Fault::Unprinted)
}

fn show(asked: &Asked, value: &impl Form, words: &str) -> Result<(), Fault> {
    match asked.json {
        true => print(format!("{}\n", json::text(&value.tree())).as_bytes()),
        false => print(words.as_bytes()),
    }
}

fn no(call: &str, feed: &str, refusal: Refusal) -> Fault {
    Fault::Refused(format!("{call} {feed}").trim().into(), refusal)
}

/// A call that writes: sealed before anybody is told that it was accepted.
fn take(
    asked: &Asked,
    name: &str,
    feed: &str,
    call: impl FnOnce(&mut Panel<Store>) -> Result<(), Refusal>,
) -> Result<(), Fault> {
    let mut panel = Store::panel(&asked.state)?;
    call(&mut panel).map_err(|refusal| no(name, feed, refusal))?;
    panel.overlays_mut().commit().map_err(|error| Fault::state(&asked.state, error))?;
    match asked.json {
        true => print(format!("{}\n", json::text(&answer(None))).as_bytes()),
        false => print(b"accepted\n"),
    }
}

fn card(asked: &Asked, file: &Path) -> Result<(), Fault> {
    let arriving = input::form::<Card>(file)?;
    let mut panel = Store::panel(&asked.state)?;
    let finished = panel.card_bytes(&arriving).map_err(|refusal| no("card", "", refusal))?;
    if asked.bytes {
        return print(&finished);
    }
    let card = Card::decode(&finished).expect("a finished card has its form");
    // A person looks at a terminal, and a program at what it is piped into.
    let words = if std::io::stdout().is_terminal() { format!("{card:#}") } else { card.to_string() };
    show(asked, &card, &words)
}

fn records(asked: &Asked, trip: &str) -> Result<(), Fault> {
    let state = Store::panel(&asked.state)?.state();
    let about = state.map_err(|error| Fault::state(&asked.state, error))?.about(trip);
    let none = if about.feeds.is_empty() { format!("  no record of {trip}\n") } else { String::new() };
    show(asked, &about, &format!("{about}{none}"))
}

fn explain(asked: &Asked, number: u32) -> Result<(), Fault> {
    let refusal = Refusal::of(number);
    if refusal.is_none() && number != 0 {
        return Err(Fault::Usage(format!("there is no number {number}: they run from 0 to 8")));
    }
    if asked.json {
        return print(format!("{}\n", json::text(&answer(refusal))).as_bytes());
    }
    let (meaning, advice) = refusal.map_or(("accepted", "nothing to do"), |it| (it.meaning(), it.advice()));
    print(format!("{number}: {meaning}\n  {advice}\n").as_bytes())
}

fn convert<T: Form>(asked: &Asked, file: &Path) -> Result<(), Fault> {
    let value: T = input::value(file)?;
    match asked.bytes {
        true => print(&value.encode()),
        false => print(format!("{}\n", json::text(&value.tree())).as_bytes()),
    }
}
