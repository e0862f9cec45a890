//! Cases of crate overlay: question 2, whether a buffer is an overlay, each rule at its bound and one past it.
use crate::Cases::Listed;
use crate::{equation, Definition, Equation};
use differential::form::{Form, One, Text};
use differential::layout::{held, incomplete_rest, Feed, Overlay, StopUpdate, Trip, TripEntry, UpdateEntry};
use differential::literal::{list, option};
use differential::papers::Alert;
use differential::samples::{alert, vehicle, NOON};

pub const DEFINITIONS: &[Definition] = &[Definition {
    name: "overlay_bounds",
    of: "overlay",
    preamble: "use Rattle.overlay.specs.Image.{state_of}\n",
    cases: Listed(bounds),
}];

fn bounds() -> Vec<Equation> {
    let mut bounds = Bounds(Vec::new());
    bounds.bytes();
    bounds.feeds();
    bounds.keys();
    bounds.records();
    bounds.updates();
    bounds.vehicles();
    bounds.alerts();
    bounds.0
}

struct Bounds(Vec<Equation>);

impl Bounds {
    /// A buffer that is an overlay, and one that is none.
    fn buffers(&mut self, within: &[u8], past: &[u8]) {
        for (buffer, is_overlay) in [(within, true), (past, false)] {
            let held = held(buffer);
            assert_eq!(held.is_some(), is_overlay);
            self.0.push(equation("state_of", &[list(buffer)], option(&held)));
        }
    }

    /// A state with a value at its bound, and with one past it.
    fn states<T>(&mut self, values: [T; 2], change: impl Fn(&mut Overlay, T)) {
        let [within, past] = values.map(|value| {
            let mut overlay = Overlay { first: One, version: 7, feeds: vec![feed("f")] };
            change(&mut overlay, value);
            overlay.written()
        });
        self.buffers(&within, &past);
    }

    fn feed<T>(&mut self, values: [T; 2], change: impl Fn(&mut Feed, T)) {
        self.states(values, |overlay, value| change(&mut overlay.feeds[0], value));
    }

    fn trip<T>(&mut self, values: [T; 2], change: impl Fn(&mut Trip, T)) {
        self.feed(values, |feed, value| change(&mut feed.trips[0].trip, value));
    }

    fn update<T>(&mut self, values: [T; 2], change: impl Fn(&mut UpdateEntry, T)) {
        self.trip(values, |trip, value| change(&mut trip.updates[0], value));
    }

    fn alert<T>(&mut self, values: [T; 2], change: impl Fn(&mut Alert, T)) {
        self.feed(values, |feed, value| change(&mut feed.alerts[0], value));
    }

    fn bytes(&mut self) {
        let whole = Overlay { first: One, version: 7, feeds: vec![feed("f")] }.written();
        self.buffers(&[whole.as_slice(), &[0, 0]].concat(), &[whole.as_slice(), &[0, 1]].concat());
        self.buffers(&whole, &whole[..whole.len() - 1]);
        self.buffers(&[1, 0, 0], &[2, 0, 0]);
        self.buffers(&[1, 0, 0], &[0, 0, 0]);
        self.buffers(&[1, 0, 0], &[1, 0x80, 0, 0]);
    }

    fn feeds(&mut self) {
        let ids =
            |overlay: &mut Overlay, ids: &[&str]| overlay.feeds = ids.iter().map(|id| feed(id)).collect();
        self.states([&["a", "b", "c", "d"][..], &["a", "b", "c", "d", "e"]], ids);
        self.states([["a", "b"], ["b", "a"]], |overlay, value| ids(overlay, &value));
        self.states([["a", "aa"], ["a", "a"]], |overlay, value| ids(overlay, &value));
        self.feed([16, 17], |feed, count| feed.id = x(count));
        for values in [["f", ""], ["!", " "], ["~", "\x7f"], ["a;", "a:"]] {
            self.feed(values, |feed, id| feed.id = id.into());
        }
        self.states([u64::MAX, 0], |overlay, version| {
            overlay.version = version;
            overlay.feeds[0].count = if version == 0 { 3 } else { 2 };
        });
        self.feed([1, 0], |feed, count| feed.count = count);
        // An '@' in the feed's id is one in each key.
        self.feed([0, 1], |feed, count| (feed.id, feed.count) = ("a@b".into(), count));
        let any = |stamp: i64| {
            move |feed: &mut Feed, count: u64| (feed.timestamp, feed.count) = (Some(stamp), count)
        };
        self.feed([1, 3], any(i64::MIN));
        self.feed([1, 3], any(i64::MAX));
    }

    fn keys(&mut self) {
        let only = |feed: &mut Feed, rest: Text, trip: Trip| {
            (feed.count, feed.trips) = (1, vec![TripEntry { rest, trip }]);
        };
        self.feed([2_048, 2_049], |feed, count| {
            let names = (0..count).map(|name| format!("{name:04}"));
            feed.trips =
                names.map(|name| TripEntry { rest: name.as_str().into(), ..Default::default() }).collect();
            feed.count = count;
        });
        self.feed([["1", "2"], ["2", "1"]], |feed, rests| {
            (feed.count, feed.trips) = (2, rests.map(entry).into());
        });
        self.feed([["1", "2"], ["1", "1"]], |feed, rests| {
            (feed.count, feed.trips) = (2, rests.map(entry).into());
        });
        self.feed([64, 65], |feed, count| only(feed, x(count), Trip::default()));
        for values in [["1", ""], [" ", "\x1f"], ["~", "\x7f"]] {
            self.feed(values, |feed, rest| only(feed, rest.into(), Trip::default()));
        }
        let dated = |count: usize| Text([x(count).0, b"@20260101".into()].concat());
        let on = |date: &str| Trip { date: date.into(), ..Trip::default() };
        self.feed([64, 65], |feed, count| only(feed, dated(count), on("20260101")));
        self.feed(["20260101", "20260102"], |feed, date| only(feed, dated(64), on(date)));
        let of = |route: usize| Trip { route: x(route), direction: Some(1), ..on("20260101") };
        self.feed([64, 63], |feed, route| {
            let rest = incomplete_rest(&feed.id, &of(64));
            only(feed, rest, of(route));
        });
    }

    fn records(&mut self) {
        for values in [[i64::from(i32::MAX), 1 << 31], [i64::from(i32::MIN), -(1 << 31) - 1]] {
            self.trip(values, |trip, delay| trip.delay = Some(delay));
        }
        self.trip([16, 17], |trip, count| trip.date = x(count));
        self.trip([64, 65], |trip, count| trip.route = x(count));
        self.trip([16, 17], |trip, count| trip.time = x(count));
        self.trip([u64::from(u32::MAX), 1 << 32], |trip, direction| trip.direction = Some(direction));
        self.trip([128, 129], |trip, count| {
            let update = |sequence| UpdateEntry { sequence, ..UpdateEntry::default() };
            trip.updates = (0..count).map(update).collect();
        });
        for values in [[[1, 2], [2, 1]], [[1, 2], [1, 1]]] {
            self.trip(values, |trip, sequences: [u64; 2]| {
                let update = |sequence| UpdateEntry { sequence, ..UpdateEntry::default() };
                trip.updates = sequences.map(update).into();
            });
        }
    }

    fn updates(&mut self) {
        self.update([u64::from(u32::MAX), 1 << 32], |entry, sequence| entry.sequence = sequence);
        self.update([64, 65], |entry, count| entry.update.stop = x(count));
        for values in [[i64::from(i32::MAX), 1 << 31], [i64::from(i32::MIN), -(1 << 31) - 1]] {
            self.update(values, |entry, delay| entry.update.arrival_delay = Some(delay));
            self.update(values, |entry, delay| entry.update.departure_delay = Some(delay));
        }
        for values in [[0, -1], [4_102_444_800, 4_102_444_801]] {
            self.update(values, |entry, time| entry.update.arrival_time = Some(time));
            self.update(values, |entry, time| entry.update.departure_time = Some(time));
            self.feed(values, |feed, time| feed.vehicles[0].updated = time);
        }
    }

    fn vehicles(&mut self) {
        self.feed([64, 65], |feed, count| feed.vehicles[0].key = x(count));
        self.feed([64, 65], |feed, count| feed.vehicles[0].trip = Some(x(count)));
        for values in [[["a", "b"], ["b", "a"]], [["a", "aa"], ["a", "a"]]] {
            self.feed(values, |feed, keys| feed.vehicles = keys.map(|key| vehicle(key, None, NOON)).into());
        }
        self.feed([1_024, 1_025], |feed, count| {
            let key = |name: usize| format!("{name:04}");
            feed.vehicles = (0..count).map(|name| vehicle(&key(name), None, NOON)).collect();
        });
    }

    fn alerts(&mut self) {
        self.alert([512, 513], |alert, count| alert.header = Some(x(count)));
        self.alert([2_048, 2_049], |alert, count| alert.description = Some(x(count)));
        self.alert([64, 65], |alert, count| alert.cause = Some(x(count)));
        self.alert([64, 65], |alert, count| alert.trips = vec![x(count)]);
        self.alert([32, 33], |alert, count| alert.trips = vec![x(1); count]);
        self.alert([32, 33], |alert, count| alert.routes = vec![x(1); count]);
        self.alert([32, 33], |alert, count| alert.stops = vec![x(1); count]);
        self.alert([&[0xc3, 0xa9][..], &[0xc3]], |alert, bytes| alert.header = Some(Text(bytes.into())));
        self.feed([256, 257], |feed, count| feed.alerts = vec![alert(); count]);
    }
}

/// A feed with a dated trip, and so two keys, a vehicle and an alert.
fn feed(id: &str) -> Feed {
    Feed {
        id: id.into(),
        timestamp: None,
        count: 1,
        trips: ["1", "1@20260101"].map(entry).into(),
        vehicles: vec![vehicle("k", Some("f:1"), NOON)],
        alerts: vec![alert()],
    }
}

fn entry(rest: &str) -> TripEntry {
    let update = StopUpdate { stop: "A".into(), arrival_time: Some(NOON), ..StopUpdate::default() };
    let updates = vec![UpdateEntry { sequence: 1, update }];
    TripEntry { rest: rest.into(), trip: Trip { date: "20260101".into(), updates, ..Trip::default() } }
}

fn x(count: usize) -> Text {
    Text(vec![b'x'; count])
}
