//! The directory that a panel is fed from: FEED-1.pb is a message, FEED.alerts.pb one whose alerts are wanted,
//! FEED.alerts and FEED.vehicles are sheets, and what ends in .card is the journey; sheets and cards may be JSON,
//! with .json behind. A number behind '-' is not the feed's. Who writes files there writes them under another name
//! and renames them.
use crate::fault::Fault;
use std::collections::HashMap;
use std::fs;
use std::os::unix::fs::MetadataExt;
use std::path::{Path, PathBuf};
use std::time::SystemTime;

#[derive(Clone, Copy, Debug, PartialEq, Eq, PartialOrd, Ord)]
pub enum Kind {
    Message,
    AlertMessage,
    Alerts,
    Vehicles,
    Journey,
}

impl Kind {
    /// What it is news of: alerts come as a sheet or in a message, and the later one counts.
    pub fn news(self) -> Kind {
        match self {
            Kind::AlertMessage => Kind::Alerts,
            kind => kind,
        }
    }
}

#[derive(Clone, Debug, PartialEq)]
pub struct Arrival {
    pub kind: Kind,
    pub feed: String,
    pub path: PathBuf,
    /// The number in its name, 0 where there is none.
    number: u64,
}

/// When a file was written, how long it is, and which file it is: another of these is news.
type Seen = (SystemTime, u64, u64);

pub struct Inbox {
    directory: PathBuf,
    taken: HashMap<PathBuf, Seen>,
}

/// What a file is by its name; none where it is nothing for a panel.
fn arrival(path: &Path) -> Option<Arrival> {
    let name = path.file_name()?.to_str()?;
    let (stem, kind) = match name.strip_suffix(".json").unwrap_or(name).rsplit_once('.')? {
        (_, "pb") if name.ends_with(".json") => return None,
        (stem, "pb") => match stem.strip_suffix(".alerts") {
            Some(stem) => (stem, Kind::AlertMessage),
            None => (stem, Kind::Message),
        },
        (stem, "alerts") => (stem, Kind::Alerts),
        (stem, "vehicles") => (stem, Kind::Vehicles),
        (stem, "card") => (stem, Kind::Journey),
        _ => return None,
    };
    let numbered = stem.rsplit_once('-').and_then(|(feed, number)| Some((feed, number.parse().ok()?)));
    let (feed, number) = numbered.unwrap_or((stem, 0));
    (!stem.starts_with('.')).then(|| Arrival { kind, feed: feed.into(), path: path.into(), number })
}

impl Inbox {
    pub fn of(directory: &Path) -> Inbox {
        Inbox { directory: directory.into(), taken: HashMap::new() }
    }

    /// What has come or changed since the last time, the oldest first; by their numbers where they are equally old.
    pub fn arrived(&mut self) -> Result<Vec<Arrival>, Fault> {
        let unread = |error| Fault::Unread(self.directory.clone(), error);
        let entries = fs::read_dir(&self.directory).map_err(unread)?;
        // A file that is gone again is no news.
        let there = entries.filter_map(|entry| seen(arrival(&entry.ok()?.path())?));
        let there: Vec<(Seen, Arrival)> = there.collect();
        let now = there.iter().map(|(seen, arrival)| (arrival.path.clone(), *seen)).collect();
        let before = std::mem::replace(&mut self.taken, now);
        let news = there.into_iter().filter(|(seen, arrival)| before.get(&arrival.path) != Some(seen));
        let mut news: Vec<_> = news.collect();
        news.sort_by_cached_key(|(seen, arrival)| (seen.0, arrival.number, arrival.path.clone()));
        Ok(news.into_iter().map(|(_, arrival)| arrival).collect())
    }
}

fn seen(arrival: Arrival) -> Option<(Seen, Arrival)> {
    let about = fs::metadata(&arrival.path).ok()?;
    let written = about.modified().unwrap_or(SystemTime::UNIX_EPOCH);
    Some(((written, about.len(), about.ino()), arrival))
}

#[cfg(test)]
mod tests {
    use super::*;

    fn named(name: &str) -> Option<(Kind, String)> {
        arrival(Path::new(name)).map(|arrival| (arrival.kind, arrival.feed))
    }

    #[test]
    fn files_by_their_names() {
        assert_eq!(named("in/north-1.pb"), Some((Kind::Message, "north".into())));
        assert_eq!(named("west-coast-12.pb"), Some((Kind::Message, "west-coast".into())));
        assert_eq!(named("west-coast.alerts"), Some((Kind::Alerts, "west-coast".into())));
        assert_eq!(named("city.alerts.pb"), Some((Kind::AlertMessage, "city".into())));
        assert_eq!(named("west-coast-2.alerts.pb"), Some((Kind::AlertMessage, "west-coast".into())));
        assert_eq!(named("city.vehicles.json"), Some((Kind::Vehicles, "city".into())));
        assert_eq!(named("journey.card"), Some((Kind::Journey, "journey".into())));
        let none =
            ["north-1.pb.part", "north-1.pb.json", "a.alerts.pb.json", ".hidden.pb", "notes.txt", "pb"];
        for name in none {
            assert_eq!(named(name), None, "{name}");
        }
    }
}
