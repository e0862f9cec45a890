//! Each question at its bound and one past it, as lists of calls on a fresh overlay of which the last is
//! judged.
use crate::form::{Form, Text};
use crate::messages::*;
use crate::panel::{Call, Panel};
use crate::papers::{Alert, Card, Leg, Transit, Vehicle};
use crate::samples::{self, *};
use crate::wire::{delimited, groups, overlong};

pub struct Bound {
    pub question: u8,
    pub what: String,
    /// Lists that pass the question, and the number that they give: 0, or a later question's.
    pub within: Vec<Vec<Call>>,
    pub otherwise: u8,
    /// Lists to which the question says no.
    pub past: Vec<Vec<Call>>,
}

pub fn bounds() -> Vec<Bound> {
    let mut bounds = Bounds(Vec::new());
    bounds.lengths();
    bounds.wire_form();
    bounds.paper_form();
    bounds.feed_ids();
    bounds.message_texts();
    bounds.card_texts();
    bounds.sheet_texts();
    bounds.feed_times();
    bounds.card_numbers();
    bounds.message_counts();
    bounds.paper_counts();
    bounds.finished_length();
    bounds.order();
    bounds.0
}

struct Bounds(Vec<Bound>);

impl Bounds {
    fn lists(&mut self, question: u8, what: &str, within: Vec<Vec<Call>>, past: Vec<Vec<Call>>) {
        self.0.push(Bound { question, what: what.into(), within, otherwise: 0, past });
    }

    /// Single calls that pass the question, and to which it says no.
    fn calls(&mut self, question: u8, what: &str, within: &[Call], past: &[Call]) {
        let lists = |calls: &[Call]| calls.iter().map(|call| vec![call.clone()]).collect();
        self.lists(question, what, lists(within), lists(past));
    }

    /// A call made from both bounds, and from one past each.
    fn range(&mut self, question: u8, what: &str, least: i64, most: i64, call: impl Fn(i64) -> Call) {
        let what = format!("{what}, {least} to {most}");
        self.calls(question, &what, &[call(least), call(most)], &[call(least - 1), call(most + 1)]);
    }

    /// A call made from a bound, and from one past it.
    fn most(&mut self, question: u8, what: &str, most: usize, call: impl Fn(usize) -> Call) {
        self.calls(question, &format!("{what}, {most} at most"), &[call(most)], &[call(most + 1)]);
    }

    fn lengths(&mut self) {
        // A key, a length of three bytes, and as many bytes as are wanted.
        self.most(3, "bytes of a message", 1_048_576, |length| {
            message_call(&[delimited(9, vec![0; length - 4])])
        });
        let sheet = |length| Call::AlertSheet { feed: b"f".into(), sheet: vec![0; length] };
        self.most(3, "bytes of a sheet, none in form", 1_048_576, sheet);
        self.0.last_mut().unwrap().otherwise = 4;
        self.most(3, "bytes of a card, none in form", 65_536, |length| Call::Card { card: vec![0; length] });
        self.0.last_mut().unwrap().otherwise = 4;
    }

    fn wire_form(&mut self) {
        let mut case = |what: &str, within: &[Vec<u8>], past: &[Vec<u8>]| {
            let calls = |messages: &[Vec<u8>]| -> Vec<Call> {
                messages.iter().map(|message| message_call(std::slice::from_ref(message))).collect()
            };
            self.calls(4, what, &calls(within), &calls(past));
        };
        case("groups, 16 deep at most", &[groups(15, 16)], &[groups(15, 17)]);
        case(
            "groups 16 deep in each listed message",
            &[entity(&[groups(15, 16), trip_update(&[groups(15, 16)])])],
            &[entity(&[trip_update(&[trip(&[groups(15, 17)])])])],
        );
        let ten = |last: u8| [vec![0x48], vec![0x80; 9], vec![last]].concat();
        case("tenth byte of a number, 1 at most", &[ten(0), ten(1)], &[ten(2), ten(0x80)]);
        let key = |key: u64| [overlong(key, 10), vec![0]].concat();
        case("key, 8 to 2^32 - 1", &[key(8 * 9), key((1 << 32) - 8)], &[key(0), key(1 << 32)]);
        case("wire types", &[vec![0x48, 0]], &[vec![0x4e, 0], vec![0x4f, 0], vec![0x4c]]);
        case("group closed by its own number", &[vec![0x4b, 0x4c]], &[vec![0x4b, 0x54], vec![0x4b]]);
        case("listed field's wire type", &[vec![0x0a, 0]], &[vec![0x08, 0], vec![0x0b, 0x0c]]);
        case(
            "length within the message",
            &[vec![0x4a, 1, 0]],
            &[vec![0x4a, 2, 0], vec![0x12, 2, 0x4a, 1, 0]],
        );
    }

    fn paper_form(&mut self) {
        let card = |change: &dyn Fn(&mut Vec<u8>)| {
            let mut card = card(vec![Leg::Walk("".into())]).written();
            change(&mut card);
            Call::Card { card }
        };
        let whole = || vec![card(&|_| ())];
        let broken: [(&str, &dyn Fn(&mut Vec<u8>)); 6] = [
            ("first byte 1", &|card| card[0] = 2),
            ("status 4 at most", &|card| card[12] = 5),
            ("leg kind 1 at most", &|card| card[15] = 2),
            ("ends at the last byte", &|card| card.push(0)),
            ("not cut", &|card| card.truncate(card.len() - 1)),
            ("shortest numbers", &|card| drop(card.splice(13..14, [0x80, 0]))),
        ];
        for (what, change) in broken {
            self.calls(4, &format!("card, {what}"), &whole(), &[card(change)]);
        }
        let legs = [false, true].map(|cancelled| {
            let leg = Transit { cancelled, ..leg() };
            samples::card(vec![Leg::Transit(leg)]).written()
        });
        let flag = legs[0].iter().zip(&legs[1]).position(|(one, other)| one != other).unwrap();
        let mut neither = legs[0].clone();
        neither[flag] = 2;
        let within = legs.map(|card| Call::Card { card });
        self.calls(4, "card, cancelled 1 at most", &within, &[Call::Card { card: neither }]);
        let sheet = |sheet: &[u8]| Call::AlertSheet { feed: "f".into(), sheet: sheet.into() };
        let absent = [1, 1, 0, 0, 0, 0, 0, 0];
        self.calls(4, "sheet, flag 1 at most", &[sheet(&absent)], &[sheet(&[1, 1, 2, 0, 0, 0, 0, 0])]);
        let count = [[1].as_slice(), &[0x80; 9], &[2]].concat();
        self.calls(4, "sheet, number below 2^64", &[sheet(&[1, 0])], &[sheet(&count)]);
        self.calls(4, "not empty", &[message_call(&[])], &[Call::Card { card: vec![] }, sheet(&[])]);
        let keyed = |keys: [&str; 2]| vehicles_call(keys.map(|key| vehicle(key, None, NOON)).into(), NOON);
        let within = [keyed(["a", "aa"]), keyed(["a", "b"])];
        self.calls(
            4,
            "vehicle keys ascending",
            &within,
            &[keyed(["a", "a"]), keyed(["b", "a"]), keyed(["aa", "a"])],
        );
    }

    fn feed_ids(&mut self) {
        let of = |feed: Vec<u8>| Call::Report { feed };
        self.range(5, "bytes of a feed id", 1, 16, |length| of(x(length as usize).into()));
        self.range(5, "byte of a feed id", 33, 126, |byte| of(vec![byte as u8]));
        self.calls(5, "no ':' in a feed id", &[of("a;b".into())], &[of("a:b".into())]);
        for call in [
            |feed: &str| Call::Message { feed: feed.into(), message: vec![] },
            |feed: &str| Call::AlertSheet { feed: feed.into(), sheet: vec![1, 0] },
            |feed: &str| Call::VehicleSheet { feed: feed.into(), sheet: vec![1, 0], clock: 0 },
        ] {
            self.calls(5, "feed id of a call that writes", &[call("f")], &[call("")]);
        }
    }

    fn message_texts(&mut self) {
        let in_trip = |field: Vec<u8>| message_call(&[entity(&[trip_update(&[trip(&[field])])])]);
        let in_stop = |field: Vec<u8>| message_call(&[trip_1(&[stop_time_update(&[field])])]);
        self.most(5, "bytes of a trip id", 64, |count| in_trip(trip_id(&x(count))));
        self.most(5, "bytes of a route id", 64, |count| in_trip(route_id(&x(count))));
        self.most(5, "bytes of a stop id", 64, |count| in_stop(stop_id(&x(count))));
        self.most(5, "bytes of a start date", 16, |count| in_trip(start_date(&x(count))));
        self.most(5, "bytes of a start time", 16, |count| in_trip(start_time(&x(count))));
        self.range(5, "byte of a trip id", 32, 126, |byte| in_trip(delimited(1, [byte as u8])));
        self.range(5, "byte of a start date", 32, 126, |byte| in_trip(delimited(3, [byte as u8])));
        let twice =
            |text: &str| message_call(&[entity(&[trip_update(&[trip(&[trip_id(text), trip_id("1")])])])]);
        self.calls(5, "text overwritten later", &[twice("2")], &[twice(&x(65))]);
        let deleted =
            |text: &str| message_call(&[entity(&[trip_update(&[trip(&[trip_id(text)])]), is_deleted(1)])]);
        self.calls(5, "text of a deleted entity", &[deleted("2")], &[deleted(&x(65))]);
    }

    fn card_texts(&mut self) {
        let on = |change: &dyn Fn(&mut Transit)| {
            let mut leg = leg();
            change(&mut leg);
            leg_call(leg)
        };
        let text = |count: usize| Text(x(count).into());
        self.most(5, "bytes of a mode", 64, |count| on(&|leg| leg.mode = text(count)));
        self.most(5, "bytes of a short name", 64, |count| on(&|leg| leg.short_name = text(count)));
        self.most(5, "bytes of a route", 64, |count| on(&|leg| leg.route = text(count)));
        self.most(5, "bytes of a trip", 64, |count| on(&|leg| leg.trip = text(count)));
        self.most(5, "bytes of a from stop", 64, |count| on(&|leg| leg.from = text(count)));
        self.most(5, "bytes of a to stop", 64, |count| on(&|leg| leg.to = text(count)));
        self.most(5, "bytes of a middle stop", 64, |count| on(&|leg| leg.middles = vec![middle(&x(count))]));
        self.most(5, "bytes of a payload", 2_048, |count| on(&|leg| leg.payload = text(count)));
        self.most(5, "bytes of a walk's payload", 2_048, |count| {
            card_call(&card(vec![Leg::Walk(text(count))]))
        });
        self.range(5, "byte of a mode", 32, 126, |byte| on(&|leg| leg.mode = Text(vec![byte as u8])));
        let headed = |header: Text| card_call(&Card { headers: vec![header], ..card(vec![]) });
        self.most(5, "bytes of a card's header", 512, |count| headed(text(count)));
    }

    fn sheet_texts(&mut self) {
        let text = |count: usize| Text(x(count).into());
        let with = |change: &dyn Fn(&mut Alert)| {
            let mut alert = alert();
            change(&mut alert);
            alerts_call(vec![alert])
        };
        self.most(5, "bytes of a header", 512, |count| with(&|alert| alert.header = Some(text(count))));
        self.most(5, "bytes of a description", 2_048, |count| {
            with(&|alert| alert.description = Some(text(count)))
        });
        self.most(5, "bytes of a cause", 64, |count| with(&|alert| alert.cause = Some(text(count))));
        self.most(5, "bytes of an alert's trip", 64, |count| with(&|alert| alert.trips = vec![text(count)]));
        self.most(5, "bytes of an alert's route", 64, |count| {
            with(&|alert| alert.routes = vec![text(count)])
        });
        self.most(5, "bytes of an alert's stop", 64, |count| with(&|alert| alert.stops = vec![text(count)]));
        let said = |bytes: &[u8]| with(&|alert| alert.description = Some(Text(bytes.into())));
        let well = ["\u{80}", "\u{d7ff}", "\u{e000}", "\u{10ffff}", "\0"].map(|text| said(text.as_bytes()));
        let ill: [&[u8]; 7] = [
            &[0x80],
            &[0xc1, 0xbf],
            &[0xe0, 0x9f, 0xbf],
            &[0xed, 0xa0, 0x80],
            &[0xf0, 0x8f, 0xbf, 0xbf],
            &[0xf4, 0x90, 0x80, 0x80],
            &[0xe2, 0x82],
        ];
        self.calls(5, "UTF-8 of a description", &well, &ill.map(said));

        let keyed = |vehicle: Vehicle| vehicles_call(vec![vehicle], NOON);
        self.most(5, "bytes of a vehicle key", 64, |count| keyed(vehicle(&x(count), None, NOON)));
        self.most(5, "bytes of a vehicle's trip", 64, |count| keyed(vehicle("k", Some(&x(count)), NOON)));
    }

    fn feed_times(&mut self) {
        const LAST: i64 = 4_102_444_800;
        let event = |event: Vec<u8>| message_call(&[trip_1(&[stop_time_update(&[event])])]);
        self.range(6, "arrival time", 0, LAST, |seconds| event(arrival(&[time(seconds)])));
        self.range(6, "departure time", 0, LAST, |seconds| event(departure(&[time(seconds)])));
        self.range(6, "time overwritten later", 0, LAST, |seconds| event(arrival(&[time(seconds), time(1)])));
        self.range(6, "clock", 0, LAST, |clock| vehicles_call(vec![], clock));
        self.range(6, "vehicle's updated", 0, LAST, |updated| {
            vehicles_call(vec![vehicle("k", None, updated)], NOON)
        });
        let any = [i64::MIN, -1, i64::MAX].map(|stamp| message_call(&[header(&[timestamp(stamp)])]));
        self.calls(6, "any header timestamp", &any, &[event(arrival(&[time(-1)]))]);
    }

    fn card_numbers(&mut self) {
        type Change = fn(&mut Transit, i64);
        let leg_ranges: [(&str, i64, i64, &[Change]); 5] = [
            (
                "scheduled time",
                946_684_800,
                2_145_916_799,
                &[
                    |leg, time| leg.scheduled_departure = time,
                    |leg, time| leg.scheduled_arrival = time,
                    |leg, time| leg.middles[0].scheduled_arrival = time,
                    |leg, time| leg.middles[0].scheduled_departure = time,
                ],
            ),
            (
                "other card time",
                -1_200_798_848,
                4_293_400_446,
                &[
                    |leg, time| leg.realtime_departure = Some(time),
                    |leg, time| leg.realtime_arrival = Some(time),
                    |leg, time| leg.updated = Some(time),
                    |leg, time| leg.middles[0].realtime_arrival = Some(time),
                    |leg, time| leg.middles[0].realtime_departure = Some(time),
                ],
            ),
            (
                "delay",
                i32::MIN.into(),
                i32::MAX.into(),
                &[
                    |leg, delay| leg.departure_delay = Some(delay),
                    |leg, delay| leg.arrival_delay = Some(delay),
                ],
            ),
            ("direction", 0, 255, &[|leg, number| leg.direction = Some(number.cast_unsigned())]),
            (
                "sequence",
                0,
                u32::MAX.into(),
                &[
                    |leg, number| leg.from_sequence = number.cast_unsigned(),
                    |leg, number| leg.to_sequence = number.cast_unsigned(),
                ],
            ),
        ];
        for (what, least, most, changes) in leg_ranges {
            for change in changes {
                self.range(6, what, least, most, |value| {
                    let mut leg = Transit { middles: vec![middle("f:C")], ..leg() };
                    change(&mut leg, value);
                    leg_call(leg)
                });
            }
        }
        let on = |change: &dyn Fn(&mut Card)| {
            let mut card = card(vec![]);
            change(&mut card);
            card_call(&card)
        };
        let (least, most) = (-1_200_798_848, 4_293_400_446);
        self.range(6, "card's departure", least, most, |time| on(&|card| card.departure = time));
        self.range(6, "card's arrival", least, most, |time| on(&|card| card.arrival = time));
        let longest = 5_494_199_294;
        self.range(6, "card's duration", -longest, longest, |time| on(&|card| card.duration = time));
    }

    fn message_counts(&mut self) {
        let trips = |names: std::ops::Range<usize>| -> Vec<Vec<u8>> {
            names.map(|name| entity(&[trip_update(&[trip(&[trip_id(&numbered(name))])])])).collect()
        };
        self.most(7, "keys of a feed", 2_048, |count| message_call(&trips(0..count)));
        let onto = |count: usize| {
            let added = trips(2_047..count).concat();
            let added = [header(&[incrementality(DIFFERENTIAL)]), added];
            vec![message_call(&trips(0..2_047)), message_call(&added)]
        };
        self.lists(7, "keys onto 2,047 by DIFFERENTIAL", vec![onto(2_048)], vec![onto(2_049)]);
        let stops = |count: usize, distinct: usize| -> Vec<Vec<u8>> {
            (0..count).map(|place| stop_time_update(&[stop_sequence((place % distinct) as i64)])).collect()
        };
        self.most(7, "updates of a trip", 128, |count| message_call(&[trip_1(&stops(count, count))]));
        self.calls(
            7,
            "200 updates, overwritten or deleted, and left",
            &[
                message_call(&[trip_1(&stops(200, 128))]),
                message_call(&[trip_1(&stops(200, 200)), trip_1(&[])]),
            ],
            &[message_call(&[trip_1(&[]), trip_1(&stops(200, 200))])],
        );
        let feeds = |count: usize| -> Vec<Call> {
            (0..count).map(|feed| Call::Message { feed: vec![b'a' + feed as u8], message: vec![] }).collect()
        };
        self.lists(7, "feeds, 4 at most", vec![feeds(4)], vec![feeds(5)]);
    }

    fn paper_counts(&mut self) {
        self.most(7, "alerts", 256, |count| alerts_call(vec![alert(); count]));
        let ids = |count: usize| vec![Text::from("x"); count];
        self.most(7, "trips of an alert", 32, |count| {
            alerts_call(vec![Alert { trips: ids(count), ..alert() }])
        });
        self.most(7, "routes of an alert", 32, |count| {
            alerts_call(vec![Alert { routes: ids(count), ..alert() }])
        });
        self.most(7, "stops of an alert", 32, |count| {
            alerts_call(vec![Alert { stops: ids(count), ..alert() }])
        });
        let vehicles = |names: std::ops::Range<usize>, updated: i64| -> Vec<Vehicle> {
            names.map(|name| vehicle(&numbered(name), None, updated)).collect()
        };
        self.most(7, "vehicles", 1_024, |count| vehicles_call(vehicles(0..count, NOON), NOON));
        let onto = |old: usize, count: usize, clock: i64| {
            let added = vehicles(old..count, clock);
            vec![vehicles_call(vehicles(0..old, NOON), NOON), vehicles_call(added, clock)]
        };
        let (within, past) = (onto(1_023, 1_024, NOON), onto(1_023, 1_025, NOON));
        self.lists(7, "vehicles onto 1,023", vec![within], vec![past]);
        let (stale, fresh) = (onto(1_024, 1_025, NOON + 901), onto(1_024, 1_025, NOON + 900));
        self.lists(7, "a vehicle onto 1,024, stale and fresh", vec![stale], vec![fresh]);
        self.most(7, "legs", 16, |count| card_call(&card(vec![Leg::Walk("".into()); count])));
        self.most(7, "middle stops of a leg", 64, |count| {
            leg_call(Transit { middles: vec![middle("f:C"); count], ..leg() })
        });
        self.most(7, "headers", 1_024, |count| card_call(&Card { headers: ids(count), ..card(vec![]) }));
    }

    /// A card that grows as it is finished: every leg is cancelled and so gets times and delays.
    fn finished_length(&mut self) {
        let cancelled = trip_1(&[trip(&[trip_relationship(CANCELED)])]);
        let arriving = |payload: usize| {
            let full = Transit { middles: vec![middle(&x(64)); 64], payload: Text(x(750).into()), ..leg() };
            let mut legs = vec![Leg::Transit(full); 10];
            legs.push(Leg::Transit(Transit { payload: Text(x(payload).into()), ..leg() }));
            card(legs)
        };
        let finished = |payload: usize| {
            let mut panel = Panel::default();
            panel.run(&message_call(std::slice::from_ref(&cancelled)));
            panel.original.card(&arriving(payload)).written().len()
        };
        let payload = 1_000 + 65_536 - finished(1_000);
        assert_eq!(finished(payload), 65_536);
        let calls =
            |payload| vec![message_call(std::slice::from_ref(&cancelled)), card_call(&arriving(payload))];
        let what = "finished card of 65536 bytes and one more";
        self.lists(8, what, vec![calls(payload)], vec![calls(payload + 1)]);
    }

    /// The first no decides, over the whole input.
    fn order(&mut self) {
        let late = || entity(&[trip_update(&[stop_time_update(&[arrival(&[time(-1)])])])]);
        let long = || entity(&[trip_update(&[trip(&[trip_id(&x(65))])])]);
        let fine = || vec![message_call(&[])];
        for (question, what, parts) in [
            (5, "a time, then a text", vec![late(), long()]),
            (4, "a time, a text, then a stray group end", vec![late(), long(), vec![0x4c]]),
            (3, "a text in bytes too many", vec![long(), vec![0; 1_048_577]]),
        ] {
            self.calls(question, what, &fine(), &[message_call(&parts)]);
        }
        let leg = Transit {
            mode: Text(x(65).into()),
            direction: Some(256),
            middles: vec![middle("C"); 65],
            ..leg()
        };
        self.calls(5, "a card with 5, 6 and 7", &fine(), &[leg_call(leg)]);
    }
}

/// Names of two letters, in ascending order. Few have the first letter in common.
fn numbered(name: usize) -> String {
    [65 + name / 48, 65 + name % 48].iter().map(|letter| char::from(*letter as u8)).collect()
}

fn x(count: usize) -> String {
    "x".repeat(count)
}
