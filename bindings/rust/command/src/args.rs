//! The command line.
use crate::fault::Fault;
use std::path::PathBuf;

pub const USAGE: &str = "\
mipsuqal: the live journey card

usage: mipsuqal [--state DIRECTORY] [--json] COMMAND

  message FEED FILE              take a supplier's GTFS Realtime message
  alerts FEED FILE               take an alert sheet: it replaces the feed's alerts
  alerts-message FEED FILE       the same with the alerts of a GTFS Realtime message
  vehicles FEED FILE --clock T   take vehicles' places; T in seconds since 1970 UTC
  card FILE [--bytes]            finish a journey's card by what was accepted
  report FEED                    version, number of trips, header timestamp
  records TRIP                   the raw records behind a train
  explain NUMBER                 what a refusal's number says, and what to do
  convert KIND FILE [--bytes]    a card, alerts or vehicles from either form to JSON, or to bytes
  fresh                          forget everything
  panel DIRECTORY [--clock T] [--once] [--colour]
                                 the handlebar panel in this terminal, fed by the files in a directory

Cards and sheets are JSON or in document 01's bytes. The state is in the directory mipsuqal.state, or in
MIPSUQAL_STATE, or in that of --state. Exit status: 0; a refusal's number, 1 to 8; 64 for a wrong command line, 65 for
JSON of another kind, 66 for a file that cannot be read, 74 where the state cannot be kept.
";

#[derive(Debug, PartialEq)]
pub enum Call {
    Help,
    Message { feed: String, file: PathBuf },
    Alerts { feed: String, file: PathBuf },
    AlertsMessage { feed: String, file: PathBuf },
    Vehicles { feed: String, file: PathBuf, clock: i64 },
    Card { file: PathBuf },
    Report { feed: String },
    Records { trip: String },
    Explain { number: u32 },
    Convert { kind: String, file: PathBuf },
    Fresh,
    Panel { directory: PathBuf },
}

#[derive(Debug, PartialEq)]
pub struct Asked {
    pub call: Call,
    pub state: PathBuf,
    pub json: bool,
    pub bytes: bool,
    pub once: bool,
    pub colour: bool,
    pub clock: Option<i64>,
}

/// Words in order, and options wherever they stand.
#[derive(Default)]
struct Words {
    plain: Vec<String>,
    state: Option<PathBuf>,
    clock: Option<i64>,
    flags: Vec<String>,
}

fn usage<T>(why: impl Into<String>) -> Result<T, Fault> {
    Err(Fault::Usage(why.into()))
}

fn whole<T: std::str::FromStr>(name: &str, word: &str) -> Result<T, Fault> {
    word.parse().or_else(|_| usage(format!("{name} should be a whole number, and is '{word}'")))
}

fn sorted(words: &[String]) -> Result<Words, Fault> {
    let mut found = Words::default();
    let mut words = words.iter();
    while let Some(word) = words.next() {
        let mut value = || words.next().ok_or_else(|| Fault::Usage(format!("{word} wants a value")));
        match word.as_str() {
            "--state" => found.state = Some(value()?.into()),
            "--clock" => found.clock = Some(whole("--clock", value()?)?),
            "--json" | "--bytes" | "--once" | "--colour" => found.flags.push(word.clone()),
            "--help" | "-h" => found.plain.insert(0, "help".into()),
            _ if word.starts_with("--") => return usage(format!("there is no {word}")),
            _ => found.plain.push(word.clone()),
        }
    }
    Ok(found)
}

fn call(words: &[&str], clock: Option<i64>) -> Result<Call, Fault> {
    let feed = |feed: &str| feed.to_string();
    Ok(match *words {
        [] | ["help", ..] => Call::Help,
        ["message", id, file] => Call::Message { feed: feed(id), file: file.into() },
        ["alerts", id, file] => Call::Alerts { feed: feed(id), file: file.into() },
        ["alerts-message", id, file] => Call::AlertsMessage { feed: feed(id), file: file.into() },
        ["vehicles", id, file] => {
            let Some(clock) = clock else { return usage("vehicles wants --clock T") };
            Call::Vehicles { feed: feed(id), file: file.into(), clock }
        }
        ["card", file] => Call::Card { file: file.into() },
        ["report", id] => Call::Report { feed: feed(id) },
        ["records", trip] => Call::Records { trip: trip.into() },
        ["explain", number] => Call::Explain { number: whole("NUMBER", number)? },
        ["convert", kind @ ("card" | "alerts" | "vehicles"), file] => {
            Call::Convert { kind: kind.into(), file: file.into() }
        }
        ["fresh"] => Call::Fresh,
        ["panel", directory] => Call::Panel { directory: directory.into() },
        [name, ..] => return usage(format!("'{name}' is no command, or has other words after it")),
    })
}

pub fn parse(words: &[String]) -> Result<Asked, Fault> {
    let found = sorted(words)?;
    let plain: Vec<&str> = found.plain.iter().map(String::as_str).collect();
    let flag = |name: &str| found.flags.iter().any(|flag| flag == name);
    let state = || std::env::var_os("MIPSUQAL_STATE").map_or("mipsuqal.state".into(), PathBuf::from);
    Ok(Asked {
        call: call(&plain, found.clock)?,
        state: found.state.clone().unwrap_or_else(state),
        json: flag("--json"),
        bytes: flag("--bytes"),
        once: flag("--once"),
        colour: flag("--colour"),
        clock: found.clock,
    })
}
