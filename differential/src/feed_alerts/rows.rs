//! Messages and what document 02's C-11 gives for them: what is due is written from the paper, small sheets to the
//! byte.
use crate::feed_alerts::SHEET;
use crate::form::{Form, Text};
use crate::messages::alerts::*;
use crate::messages::{header, incrementality, trip_update, DIFFERENTIAL};
use crate::papers::{Alert, AlertSheet};
use crate::wire::{delimited, group, groups, varint};

pub struct Row {
    pub what: String,
    pub feed: Vec<u8>,
    pub message: Vec<u8>,
    /// The sheet's bytes, or the number.
    pub due: Result<Vec<u8>, u8>,
}

pub fn rows() -> Vec<Row> {
    let mut rows = Rows(Vec::new());
    rows.entities();
    rows.texts();
    rows.ids();
    rows.unlisted();
    rows.form();
    rows.judged();
    rows.bounds();
    rows.counts();
    rows.lengths();
    rows.order();
    rows.0
}

struct Rows(Vec<Row>);

/// Bytes in hexadecimal, spaces between them or not.
fn bytes(hex: &str) -> Vec<u8> {
    let digits: Vec<_> = hex.chars().filter(|digit| *digit != ' ').collect();
    let byte = |pair: &[char]| u8::from_str_radix(&String::from_iter(pair), 16).expect("two digits");
    digits.chunks(2).map(byte).collect()
}

fn written(alerts: Vec<Alert>) -> Vec<u8> {
    AlertSheet { alerts, ..AlertSheet::default() }.written()
}

/// An entity with one alert of these fields.
fn one(fields: &[Vec<u8>]) -> Vec<u8> {
    entity(&[alert(fields)])
}

fn selected(fields: &[Vec<u8>]) -> Vec<u8> {
    informed_entity(fields)
}

/// A header_text of one translation.
fn headed(of: &str) -> Vec<u8> {
    header_text(&[translation(&[text(of)])])
}

/// Bytes as a text, whatever they are: in a header's translation, in a description's.
fn raw(field: fn(&[Vec<u8>]) -> Vec<u8>, bytes: &[u8]) -> Vec<u8> {
    field(&[translation(&[delimited(1, bytes)])])
}

const ONE_EMPTY: &str = "01 01 00 00 00 00 00 00";

impl Rows {
    fn row(&mut self, what: &str, feed: &[u8], message: Vec<u8>, due: Result<Vec<u8>, u8>) {
        self.0.push(Row { what: what.into(), feed: feed.into(), message, due });
    }

    /// A message of feed `f` and its sheet, both in hexadecimal.
    fn gives(&mut self, what: &str, message: &str, sheet: &str) {
        self.row(what, b"f", bytes(message), Ok(bytes(sheet)));
    }

    fn made(&mut self, what: &str, message: &[Vec<u8>], sheet: &str) {
        self.row(what, b"f", message.concat(), Ok(bytes(sheet)));
    }

    fn no(&mut self, number: u8, what: &str, message: &[Vec<u8>]) {
        self.row(what, b"f", message.concat(), Err(number));
    }

    /// The last message that a question lets pass, and the first that it doesn't.
    fn most(&mut self, number: u8, what: &str, most: usize, message: impl Fn(usize) -> Vec<u8>) {
        self.accepted(&format!("{what}, {most}"), message(most));
        self.no(number, &format!("{what}, {}", most + 1), &[message(most + 1)]);
    }

    /// A message that is taken: what its sheet is, the oracle alone says.
    fn accepted(&mut self, what: &str, message: Vec<u8>) {
        let due = super::sheet(b"f", &message).map(|sheet| sheet.written());
        let due = due.map_err(|number| panic!("{what}: {number}"));
        self.row(what, b"f", message, due);
    }

    fn entities(&mut self) {
        self.gives("no entity", "", "01 00");
        self.gives("an entity without an alert", "12 00", "01 00");
        self.gives("an empty alert", "12 02 2a 00", ONE_EMPTY);
        self.gives("deleted, behind its alert", "12 04 2a 00 10 01", "01 00");
        self.gives("the last is_deleted counts", "12 06 10 01 2a 00 10 00", ONE_EMPTY);
        self.gives("is_deleted 2^32", "12 08 2a 00 10 80 80 80 80 10", "01 00");
        let merged = entity(&[
            alert(&[headed("A"), selected(&[route_id("R")])]),
            alert(&[headed("B"), selected(&[route_id("Q")])]),
        ]);
        let sheet = "01 01 01 01 41 00 00 00 02 03 66 3a 52 03 66 3a 51 00";
        self.made("alerts of one entity merge", &[merged], sheet);
        let two = [one(&[headed("A")]), one(&[headed("B")])];
        self.made("two entities", &two, "01 02 01 01 41 00 00 00 00 00 01 01 42 00 00 00 00 00");
    }

    fn texts(&mut self) {
        let header_a = "01 01 01 01 41 00 00 00 00 00";
        let header_b = "01 01 01 01 42 00 00 00 00 00";
        self.gives("a header", "12 09 2a 07 52 05 0a 03 0a 01 41", header_a);
        self.gives("a description", "12 09 2a 07 5a 05 0a 03 0a 01 41", "01 01 00 01 01 41 00 00 00 00");
        let french = "12 16 2a 14 52 12 0a 07 0a 01 41 12 02 64 65 0a 07 0a 01 42 12 02 66 72";
        self.gives("German before French", french, header_a);
        let without = "12 0f 2a 0d 52 0b 0a 04 12 02 66 72 0a 03 0a 01 42";
        self.gives("the first translation has no text", without, ONE_EMPTY);
        let empty = "12 0d 2a 0b 52 09 0a 02 0a 00 0a 03 0a 01 42";
        self.gives("the first text is empty", empty, "01 01 01 00 00 00 00 00 00");
        self.gives("no translation", "12 04 2a 02 52 00", ONE_EMPTY);
        self.gives("header_texts merge", "12 0b 2a 09 52 00 52 05 0a 03 0a 01 42", header_b);
        self.gives("the last text counts", "12 0c 2a 0a 52 08 0a 06 0a 01 41 0a 01 42", header_b);
        let apart = entity(&[alert(&[headed("A")]), is_deleted(0), alert(&[headed("B")])]);
        self.made("header_texts of two alerts merge", &[apart], header_a);
    }

    fn ids(&mut self) {
        let all = "12 0f 2a 0d 2a 0b 12 01 52 22 03 0a 01 54 2a 01 53";
        let sheet = "01 01 00 00 00 01 03 66 3a 54 01 03 66 3a 52 01 03 66 3a 53";
        self.gives("a trip, a route, a stop", all, sheet);
        let stops = ["b", "a", "b"].map(|stop| selected(&[stop_id(stop)]));
        let sheet = "01 01 00 00 00 00 00 03 03 66 3a 62 03 66 3a 61 03 66 3a 62";
        self.made("stops in their order, one twice", &[one(&stops)], sheet);
        let none = "12 0f 2a 0d 2a 02 12 00 2a 05 2a 01 61 2a 00 2a 00";
        self.gives("empty ids, one after another", none, ONE_EMPTY);
        let trips = one(&[selected(&[trip(&[trip_id("S")]), trip(&[trip_id("T")])])]);
        self.made("trips of one selector merge", &[trips], "01 01 00 00 00 01 03 66 3a 54 00 00");
        let again = one(&[selected(&[trip(&[trip_id("T")]), trip(&[])])]);
        self.made("a trip without an id behind", &[again], "01 01 00 00 00 01 03 66 3a 54 00 00");
        let prefixed = one(&[selected(&[route_id("f:R")])]);
        self.made("a prefix before a prefix", &[prefixed], "01 01 00 00 00 00 01 05 66 3a 66 3a 52 00");
    }

    /// Fields that the trip call lists, and any others.
    fn unlisted(&mut self) {
        let other = "08 05 12 07 1a 01 ff 08 07 2a 00";
        self.gives("header, trip_update and id, of any form", other, ONE_EMPTY);
        let differential = [header(&[incrementality(DIFFERENTIAL)]), one(&[])];
        self.made("DIFFERENTIAL", &differential, ONE_EMPTY);
        let both = entity(&[trip_update(&[delimited(1, [0xff])]), alert(&[])]);
        self.made("a broken trip_update beside an alert", &[both], ONE_EMPTY);
        let caused = one(&[varint(6, 9), varint(7, 1), delimited(1, [0xff]), headed("A")]);
        self.made("cause, effect, a broken period", &[caused], "01 01 01 01 41 00 00 00 00 00");
        let grouped = [
            group(9, &one(&[])),
            one(&[
                groups(1, 16),
                selected(&[group(1, &stop_id("x")), route_id("R"), delimited(1, [0xff]), varint(3, 7)]),
            ]),
        ];
        self.made("groups, and an alert in one", &grouped, "01 01 00 00 00 00 01 03 66 3a 52 00");
    }

    fn form(&mut self) {
        self.no(4, "alert of another wire type", &[bytes("12 02 28 05")]);
        self.no(4, "stop_id of another wire type", &[bytes("12 06 2a 04 2a 02 28 05")]);
        self.no(4, "header_text of another wire type", &[bytes("12 04 2a 02 50 01")]);
        self.no(4, "is_deleted of another wire type", &[bytes("12 02 12 00")]);
        self.no(4, "cut in a text", &[bytes("12 07 2a 05 52 03 0a 02 0a")]);
        self.no(4, "broken inside a deleted entity", &[bytes("12 05 10 01 2a 01 52")]);
        self.no(4, "a group as entity", &[group(2, &[])]);
        self.no(4, "a stray group end", &[bytes("0c")]);
        let deep = |depth: usize, place: usize| {
            let added = |here: usize| if here == place { groups(15, depth) } else { vec![] };
            let texts = header_text(&[added(5), translation(&[added(6), text("A")])]);
            let chosen = selected(&[added(3), trip(&[added(4), trip_id("T")])]);
            [added(0), entity(&[added(1), alert(&[added(2), chosen, texts])])].concat()
        };
        for place in 0..7 {
            self.most(4, &format!("groups in listed message {place}"), 16, |depth| deep(depth, place));
        }
    }

    /// Question 5 judges every listed value.
    fn judged(&mut self) {
        self.no(5, "a header that is no UTF-8", &[one(&[raw(header_text, &[0xff])])]);
        let second = header_text(&[translation(&[text("A")]), translation(&[delimited(1, [0xff])])]);
        self.no(5, "a second translation that is none", &[one(&[second])]);
        let overwritten = header_text(&[translation(&[delimited(1, [0xff]), text("A")])]);
        self.no(5, "an overwritten text that is none", &[one(&[overwritten])]);
        let deleted = entity(&[is_deleted(1), alert(&[raw(description_text, &[0xc3])])]);
        self.no(5, "a description in a deleted entity", &[deleted]);
        let place = |id: &[u8]| selected(&[delimited(2, id)]);
        self.no(5, "a route of 7f", &[one(&[place(&[0x7f])])]);
        let overwritten = selected(&[delimited(5, [0x1f]), stop_id("")]);
        self.no(5, "an overwritten stop of 1f", &[one(&[overwritten])]);
        self.no(5, "a trip of c3 a9", &[one(&[selected(&[trip(&[trip_id("é")])])])]);
        let bounds = one(&[place(b" "), place(b"~")]);
        self.made("bytes 32 and 126", &[bounds], "01 01 00 00 00 00 02 03 66 3a 20 03 66 3a 7e 00");
        for wrong in [[0xc0, 0x80].as_slice(), &[0xed, 0xa0, 0x80], &[0xf4, 0x90, 0x80, 0x80], &[0xe2, 0x82]]
        {
            self.no(5, "no UTF-8", &[one(&[raw(header_text, wrong)])]);
        }
        for feed in [b"".as_slice(), b"a:b", b"a b", b"seventeen-letters", &[b'x'; 64]] {
            self.row("a feed id that is none", feed, one(&[]), Err(5));
        }
    }

    fn bounds(&mut self) {
        let id = |length: usize| "i".repeat(length);
        self.most(5, "bytes of a route", 62, |length| one(&[selected(&[route_id(&id(length))])]));
        self.most(5, "bytes of a stop", 62, |length| one(&[selected(&[stop_id(&id(length))])]));
        self.most(5, "bytes of a trip", 62, |length| one(&[selected(&[trip(&[trip_id(&id(length))])])]));
        let overwritten = |length| one(&[selected(&[stop_id(&id(length)), stop_id("")])]);
        self.most(5, "bytes of an overwritten stop", 62, overwritten);
        let long = one(&[selected(&[route_id(&id(47))])]);
        let due = written(vec![Alert {
            routes: vec![Text(format!("sixteen--letters:{}", id(47)).into())],
            ..Alert::default()
        }]);
        self.row("a route of 47 bytes, feed of 16", b"sixteen--letters", long, Ok(due));
        let longer = one(&[selected(&[route_id(&id(48))])]);
        self.row("a route of 48 bytes, feed of 16", b"sixteen--letters", longer, Err(5));
        let said = |field: fn(&[Vec<u8>]) -> Vec<u8>, length: usize| {
            one(&[field(&[translation(&[]), translation(&[text(&id(length))])])])
        };
        self.most(5, "bytes of a header", 512, |length| one(&[headed(&id(length))]));
        self.most(5, "bytes of a second header", 512, |length| said(header_text, length));
        self.most(5, "bytes of a description", 2_048, |length| {
            one(&[description_text(&[translation(&[text(&id(length))])])])
        });
        self.most(5, "bytes of a second description", 2_048, |length| said(description_text, length));
    }

    fn counts(&mut self) {
        self.most(7, "alerts", 256, |count| one(&[]).repeat(count));
        let deleted = [one(&[]).repeat(256), entity(&[is_deleted(1), alert(&[])]), entity(&[])];
        self.row(
            "257 alerts, one of them deleted",
            b"f",
            deleted.concat(),
            Ok(written(vec![Alert::default(); 256])),
        );
        let fields: [fn() -> Vec<u8>; 3] = [|| stop_id("S"), || route_id("R"), || trip(&[trip_id("T")])];
        for field in fields {
            self.most(7, "ids of a list", 32, |count| one(&vec![selected(&[field()]); count]));
        }
        let passed = [vec![selected(&[stop_id("S")]); 32], vec![selected(&[stop_id("")])]].concat();
        self.accepted("33 selectors, one with an empty stop", one(&passed));
        let all = vec![selected(&[stop_id("S"), route_id("R"), trip(&[trip_id("T")])]); 32];
        self.accepted("32 ids in each list", one(&all));
        let merged = entity(&[alert(&all[..16]), alert(&all[..16])]);
        self.accepted("32 ids by two alerts that merge", merged);
        let merged = entity(&[alert(&all[..16]), alert(&all[..17])]);
        self.no(7, "33 ids by two alerts that merge", &[merged]);
    }

    fn lengths(&mut self) {
        // A key, a length of three bytes, and as many bytes as are wanted.
        self.most(3, "bytes of a message", 1_048_576, |length| delimited(9, vec![0; length - 4]));
        let feed = b"sixteen--letters";
        for (what, length) in [("a sheet of 1,048,576 bytes", SHEET), ("of 1,048,577", SHEET + 1)] {
            let (message, sheet) = long(length);
            let due = if length == SHEET { Ok(sheet.written()) } else { Err(8) };
            self.row(what, feed, message, due);
        }
        let crowd = vec![
            selected(&[
                stop_id(&"S".repeat(38)),
                route_id(&"R".repeat(38)),
                trip(&[trip_id(&"T".repeat(38))])
            ]);
            32
        ];
        self.row("the most ids of 38 bytes", feed, one(&crowd).repeat(256), Err(8));
    }

    /// The first no decides.
    fn order(&mut self) {
        let bad = one(&[raw(header_text, &[0xff])]);
        self.no(5, "a bad text and a 257th alert", &[bad.clone(), one(&[]).repeat(257)]);
        self.no(4, "a bad text and a broken message", &[bad.clone(), bytes("0c")]);
        self.no(3, "too long and broken", &[vec![0; 1_048_577]]);
        self.row("a bad feed id and a broken message", b"a:b", bytes("0c"), Err(4));
        self.row("a bad feed id and a 257th alert", b"", one(&[]).repeat(257), Err(5));
        let (message, _) = long(SHEET + 1);
        let more = [message, one(&[]).repeat(257)].concat();
        self.row("a 257th alert and too long a sheet", b"sixteen--letters", more, Err(7));
    }
}

/// A message whose sheet has so many bytes, feed `sixteen--letters`; and the sheet.
fn long(length: usize) -> (Vec<u8>, AlertSheet) {
    const IDS: usize = 32;
    let ids = ["T", "R", "S"].map(|letter| letter.repeat(38));
    let chosen = selected(&[trip(&[trip_id(&ids[0])]), route_id(&ids[1]), stop_id(&ids[2])]);
    let [trips, routes, stops] = ids.map(|id| vec![Text(format!("sixteen--letters:{id}").into()); IDS]);
    let full = Alert { trips, routes, stops, ..Alert::default() };
    let mut message = one(&vec![chosen; IDS]).repeat(190);
    let mut sheet = AlertSheet { alerts: vec![full; 190], ..AlertSheet::default() };
    let mut left = length - sheet.written().len();
    // An alert of a description alone has eight bytes besides it, where that has 128 at least.
    while left > 0 {
        let said = "d".repeat(left.min(2_056) - 8);
        message.extend(one(&[description_text(&[translation(&[text(&said)])])]));
        sheet.alerts.push(Alert { description: Some(Text(said.as_str().into())), ..Alert::default() });
        left -= said.len() + 8;
    }
    (message, sheet)
}
