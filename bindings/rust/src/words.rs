//! Cards and raw records as a person reads them, in the words of the program `ride`.
use crate::card::{Card, Leg, MiddleStop, Status, Transit};
use crate::large::large;
use crate::paris::time_of_day;
use crate::report::Report;
use crate::sheets::{Alert, Vehicle};
use crate::state::{Feed, State, StopTimeUpdate, Trip};
use std::fmt::{Display, Formatter, Result};

/// A value behind its name, where it is there.
fn named(f: &mut Formatter, name: &str, value: Option<impl Display>) -> Result {
    value.map_or(Ok(()), |value| write!(f, "{name}{value}"))
}

fn given(text: &str) -> Option<&str> {
    Some(text).filter(|text| !text.is_empty())
}

/// A supplier's text can't speak to a terminal: control characters are blanks.
fn clean(text: &str) -> String {
    text.replace(char::is_control, " ")
}

/// Five digits behind the point; what is no number of degrees is a question mark.
fn degrees(float: f64) -> String {
    if float.abs() < 256.0 {
        format!("{float:.5}")
    } else {
        "?".into()
    }
}

impl Display for Status {
    fn fmt(&self, f: &mut Formatter) -> Result {
        f.pad(&self.name().replace('_', " "))
    }
}

/// In minutes where they are whole.
fn delay(seconds: i64) -> String {
    let length = match seconds.unsigned_abs() {
        whole if whole % 60 == 0 => format!("{} min", whole / 60),
        other => format!("{other} s"),
    };
    match seconds {
        0 => " (on time)".into(),
        1.. => format!(" ({length} late)"),
        _ => format!(" ({length} early)"),
    }
}

/// `{:#}` has the status in large.
impl Display for Card {
    fn fmt(&self, f: &mut Formatter) -> Result {
        match f.alternate() {
            true => write!(f, "{}", large(&self.status.to_string()))?,
            false => write!(f, "  [ {} ]", self.status)?,
        }
        let (from, to) = (time_of_day(self.departure), time_of_day(self.arrival));
        writeln!(f, "  {from} - {to}, {} min", self.duration / 60)?;
        self.headers.iter().try_for_each(|header| writeln!(f, "  ! {}", clean(header)))?;
        self.legs.iter().try_for_each(|leg| write!(f, "{leg}"))
    }
}

impl Display for Leg {
    fn fmt(&self, f: &mut Formatter) -> Result {
        match self {
            Leg::Walk(_) => writeln!(f, "  walk"),
            Leg::Transit(transit) => write!(f, "{transit}"),
        }
    }
}

impl Display for Transit {
    fn fmt(&self, f: &mut Formatter) -> Result {
        write!(f, "  {}", self.mode)?;
        named(f, " ", given(&self.short_name))?;
        named(f, ", route ", given(&self.route))?;
        named(f, ", trip ", given(&self.trip))?;
        named(f, ", direction ", self.direction)?;
        named(f, "\n    from ", given(&self.from))?;
        named(f, " to ", given(&self.to))?;
        named(f, "\n    scheduled ", Some(time_of_day(self.scheduled_departure)))?;
        named(f, " - ", Some(time_of_day(self.scheduled_arrival)))?;
        expected(f, self)?;
        named(f, "\n    the vehicle is at ", self.latitude.map(degrees))?;
        named(f, ", ", self.longitude.map(degrees))?;
        named(f, ", seen ", self.updated.map(time_of_day))?;
        writeln!(f)?;
        self.middle_stops.iter().try_for_each(|stop| match self.cancelled {
            true => write!(f, "{}", missed(stop)),
            false => write!(f, "{stop}"),
        })
    }
}

/// The two expected times, each with its delay. A train that is cancelled is expected nowhere, whatever they say.
fn expected(f: &mut Formatter, leg: &Transit) -> Result {
    if leg.cancelled {
        return write!(f, "\n    CANCELLED");
    }
    named(f, "\n    expected", leg.realtime_departure.or(leg.realtime_arrival).map(|_| " "))?;
    named(f, " ", leg.realtime_departure.map(time_of_day))?;
    named(f, "", leg.departure_delay.map(delay))?;
    named(f, " - ", leg.realtime_arrival.map(time_of_day))?;
    named(f, "", leg.arrival_delay.map(delay))
}

/// A stop to which no train comes.
fn missed(stop: &MiddleStop) -> MiddleStop {
    MiddleStop { realtime_arrival: None, realtime_departure: None, ..stop.clone() }
}

impl Display for MiddleStop {
    fn fmt(&self, f: &mut Formatter) -> Result {
        let (from, to) = (time_of_day(self.scheduled_arrival), time_of_day(self.scheduled_departure));
        write!(f, "      by {} {from} - {to}", self.stop)?;
        named(f, ", expected ", self.realtime_arrival.map(time_of_day))?;
        named(f, " to ", self.realtime_departure.map(time_of_day))?;
        writeln!(f)
    }
}

impl Display for State {
    fn fmt(&self, f: &mut Formatter) -> Result {
        writeln!(f, "version {}", self.version)?;
        self.feeds.iter().try_for_each(|feed| write!(f, "{feed}"))
    }
}

impl Display for Feed {
    fn fmt(&self, f: &mut Formatter) -> Result {
        write!(f, "  feed {}", self.id)?;
        named(f, ", timestamp ", self.header_timestamp)?;
        writeln!(f, ", trip_update_count {}", self.trip_update_count)?;
        self.trips.iter().try_for_each(|trip| write!(f, "{trip}"))?;
        self.vehicles.iter().try_for_each(|vehicle| write!(f, "{vehicle}"))?;
        self.alerts.iter().try_for_each(|alert| write!(f, "{alert}"))
    }
}

impl Display for Trip {
    fn fmt(&self, f: &mut Formatter) -> Result {
        write!(f, "    trip {}", self.key)?;
        named(f, ", late ", self.delay)?;
        named(f, ", ", self.cancelled.then_some("CANCELLED"))?;
        named(f, ", date ", given(&self.start_date))?;
        named(f, ", route ", given(&self.route))?;
        named(f, ", direction ", self.direction)?;
        named(f, ", start ", given(&self.start_time))?;
        writeln!(f)?;
        self.updates.iter().try_for_each(|update| write!(f, "{update}"))
    }
}

impl Display for StopTimeUpdate {
    fn fmt(&self, f: &mut Formatter) -> Result {
        write!(f, "      {}", self.sequence)?;
        named(f, " stop ", given(&self.stop))?;
        named(f, ", arrival late ", self.arrival_delay)?;
        named(f, ", arrival at ", self.arrival_time)?;
        named(f, ", departure late ", self.departure_delay)?;
        named(f, ", departure at ", self.departure_time)?;
        named(f, ", ", self.skipped.then_some("skipped"))?;
        writeln!(f)
    }
}

impl Display for Vehicle {
    fn fmt(&self, f: &mut Formatter) -> Result {
        write!(f, "    vehicle {}", self.key)?;
        named(f, ", trip ", self.trip.as_ref())?;
        let (latitude, longitude) = (degrees(self.latitude), degrees(self.longitude));
        writeln!(f, ", at {latitude}, {longitude}, updated {}", self.updated)
    }
}

impl Display for Alert {
    fn fmt(&self, f: &mut Formatter) -> Result {
        write!(f, "    alert")?;
        named(f, ", header ", self.header.as_deref().map(clean))?;
        named(f, ", description ", self.description.as_deref().map(clean))?;
        named(f, ", cause ", self.cause.as_deref().map(clean))?;
        for (name, ids) in [("trips", &self.trips), ("routes", &self.routes), ("stops", &self.stops)] {
            write!(f, "; {name}")?;
            ids.iter().try_for_each(|id| write!(f, " {id}"))?;
        }
        writeln!(f)
    }
}

impl Display for Report {
    fn fmt(&self, f: &mut Formatter) -> Result {
        write!(f, "version {}, trip_update_count {}", self.version, self.trip_update_count)?;
        named(f, ", timestamp ", self.header_timestamp)
    }
}
