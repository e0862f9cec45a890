//! The forms: what is written reads back, in bytes and as a tree; damaged bytes are never read as something else.
use mipsuqal::{
    end, Alert, AlertSheet, Card, Form, FormError, Kind, Leg, MiddleStop, Report, Status, Transit, Tree,
    Vehicle, VehicleSheet, Walk,
};
use std::fmt::Debug;

/// Numbers by chance: a linear congruence, so that a failure comes again.
struct Chance(u64);

impl Chance {
    fn next(&mut self) -> u64 {
        self.0 = self.0.wrapping_mul(6_364_136_223_846_793_005).wrapping_add(1_442_695_040_888_963_407);
        self.0 >> 33
    }

    fn below(&mut self, bound: u64) -> u64 {
        self.next() % bound
    }

    /// Of every length in bits.
    fn number(&mut self) -> u64 {
        (self.next() << 33 ^ self.next()) >> self.below(64)
    }

    fn signed(&mut self) -> i64 {
        self.number().cast_signed() * if self.below(2) == 0 { 1 } else { -1 }
    }

    fn text(&mut self) -> String {
        let letters = ["a", "é", "7", " ", "\u{10348}"];
        (0..self.below(200)).map(|_| letters[self.below(5) as usize]).collect()
    }

    fn bytes(&mut self) -> Vec<u8> {
        (0..self.below(9)).map(|_| self.next() as u8).collect()
    }

    fn maybe<T>(&mut self, make: impl Fn(&mut Self) -> T) -> Option<T> {
        (self.below(2) == 0).then(|| make(self))
    }

    fn list<T>(&mut self, make: impl Fn(&mut Self) -> T) -> Vec<T> {
        (0..self.below(4)).map(|_| make(self)).collect()
    }

    fn float(&mut self) -> f64 {
        self.signed() as f64 / 1e4
    }
}

fn middle_stop(c: &mut Chance) -> MiddleStop {
    MiddleStop {
        stop: c.text(),
        scheduled_arrival: c.signed(),
        scheduled_departure: c.signed(),
        realtime_arrival: c.maybe(Chance::signed),
        realtime_departure: c.maybe(Chance::signed),
    }
}

fn transit(c: &mut Chance) -> Transit {
    Transit {
        mode: c.text(),
        short_name: c.text(),
        route: c.text(),
        trip: c.text(),
        direction: c.maybe(Chance::number),
        from: c.text(),
        to: c.text(),
        from_sequence: c.number(),
        to_sequence: c.number(),
        scheduled_departure: c.signed(),
        scheduled_arrival: c.signed(),
        realtime_departure: c.maybe(Chance::signed),
        realtime_arrival: c.maybe(Chance::signed),
        departure_delay: c.maybe(Chance::signed),
        arrival_delay: c.maybe(Chance::signed),
        cancelled: c.below(2) == 0,
        latitude: c.maybe(Chance::float),
        longitude: c.maybe(Chance::float),
        updated: c.maybe(Chance::signed),
        middle_stops: c.list(middle_stop),
        payload: c.bytes(),
    }
}

fn card(c: &mut Chance) -> Card {
    let leg = |c: &mut Chance| match c.below(2) {
        0 => Leg::Walk(Walk { payload: c.bytes() }),
        _ => Leg::Transit(Box::new(transit(c))),
    };
    Card {
        departure: c.signed(),
        arrival: c.signed(),
        duration: c.signed(),
        status: Status::ALL[c.below(5) as usize],
        headers: c.list(Chance::text),
        legs: c.list(leg),
    }
}

fn alert_sheet(c: &mut Chance) -> AlertSheet {
    let alert = |c: &mut Chance| Alert {
        header: c.maybe(Chance::text),
        description: c.maybe(Chance::text),
        cause: c.maybe(Chance::text),
        trips: c.list(Chance::text),
        routes: c.list(Chance::text),
        stops: c.list(Chance::text),
    };
    AlertSheet { alerts: c.list(alert) }
}

fn vehicle_sheet(c: &mut Chance) -> VehicleSheet {
    let vehicle = |c: &mut Chance| Vehicle {
        key: c.text(),
        trip: c.maybe(Chance::text),
        latitude: c.float(),
        longitude: c.float(),
        updated: c.signed(),
    };
    VehicleSheet { vehicles: c.list(vehicle) }
}

/// Whole bytes read back to the value, and end where the library says, whatever is behind; cut ones are not read; and
/// the one value has the one writing.
fn round_trip<T: Form + Debug + PartialEq>(kind: Kind, value: &T, c: &mut Chance) {
    let bytes = value.encode();
    assert_eq!(T::decode(&bytes).as_ref(), Ok(value));
    assert_eq!(T::of_tree(&value.tree()).as_ref(), Ok(value));
    assert_eq!(end(kind, &[bytes.as_slice(), &[0; 7]].concat()), bytes.len());
    assert_eq!(end(kind, &[bytes.as_slice(), &c.bytes()].concat()), bytes.len());
    let cut = &bytes[..c.below(bytes.len() as u64) as usize];
    assert!(T::decode(cut).is_err(), "cut off");
    assert_eq!(end(kind, cut), 0);
    let mut damaged = bytes.clone();
    damaged[c.below(bytes.len() as u64) as usize] ^= 1 << c.below(8);
    if let Ok(read) = T::decode(&damaged) {
        assert_eq!(read.encode(), damaged, "two writings of one value");
    }
}

#[test]
fn what_is_written_reads_back() {
    let mut c = Chance(1);
    for _ in 0..2_000 {
        round_trip(Kind::Card, &card(&mut c), &mut c);
        round_trip(Kind::AlertSheet, &alert_sheet(&mut c), &mut c);
        round_trip(Kind::VehicleSheet, &vehicle_sheet(&mut c), &mut c);
    }
}

fn fails<T: Form + Debug>(bytes: &[u8], what: &str) {
    let FormError { what: said, .. } = T::decode(bytes).unwrap_err();
    assert!(said.contains(what), "{said}");
}

#[test]
fn other_bytes_are_not_read() {
    fails::<u64>(&[0x80, 0], "shortest");
    fails::<u64>(&[255, 255, 255, 255, 255, 255, 255, 255, 255, 2], "2^64");
    fails::<u64>(&[255; 11], "ten bytes");
    fails::<bool>(&[2], "neither");
    fails::<String>(&[1, 0xff], "UTF-8");
    fails::<Vec<u8>>(&[3, 1, 1], "too early");
    fails::<Vec<String>>(&[255, 255, 255, 255, 255, 255, 255, 255, 255, 1], "too early");
    fails::<Card>(&[2], "first byte");
    fails::<Card>(&[1, 0, 0, 0, 5, 0, 0], "status");
    fails::<Card>(&[1, 0, 0, 0, 0, 0, 0, 0], "behind");
}

#[test]
fn the_ends_of_numbers() {
    assert_eq!(u64::MAX.encode(), [255, 255, 255, 255, 255, 255, 255, 255, 255, 1]);
    for (number, code) in [(0i64, 0u64), (-1, 1), (1, 2), (i64::MIN, u64::MAX), (i64::MAX, u64::MAX - 1)] {
        assert_eq!(number.encode(), code.encode());
        assert_eq!(i64::decode(&code.encode()), Ok(number));
    }
    let odd = f64::from_bits(0x7ff8_0000_dead_beef);
    assert_eq!(f64::decode(&odd.encode()).unwrap().to_bits(), odd.to_bits());
}

#[test]
fn reports() {
    let report = Report { version: 3, trip_update_count: 2, header_timestamp: Some(-1) };
    assert_eq!(Report::of_bytes(&report.to_bytes()), report);
    assert_eq!(report.to_bytes()[..9], [3, 0, 0, 0, 0, 0, 0, 0, 2]);
    assert_eq!(Report::of_bytes(&[0; 25]), Report::default());
}

#[test]
fn trees_say_where_they_are_wrong() {
    let Tree::Record(mut fields) = Card::default().tree() else { panic!("a card is a record") };
    fields.retain(|(name, _)| name != "departure");
    let wrong = Card::of_tree(&Tree::Record(fields.clone())).unwrap_err().to_string();
    assert_eq!(wrong, "at departure: there should be a whole number in 64 bits, signed");
    fields.push(("depature".into(), Tree::Number(1)));
    let wrong = Card::of_tree(&Tree::Record(fields)).unwrap_err().to_string();
    assert!(wrong.starts_with("at the top: there should be no 'depature'"), "{wrong}");
}
