//! Cases of crate journey: the finished card of an arriving one, on the state that calls leave.
use crate::overlay::state;
use crate::Cases::{AtRandom, Listed};
use crate::{equation, Definition, Equation};
use differential::gens::card;
use differential::host::Original;
use differential::layout::overlay;
use differential::literal::Literal;
use differential::messages::{
    arrival, delay, departure, direction_id, entity, route_id, start_date, stop_id, stop_sequence,
    stop_time_update, trip, trip_delay, trip_id, trip_update,
};
use differential::panel::{Call, Panel};
use differential::papers::{Card, Leg, Transit};
use differential::random::Random;
use differential::samples::{self, message_call, trip_1, NOON};

pub const DEFINITIONS: &[Definition] = &[
    Definition { name: "enrich", cases: AtRandom(500, enrich), ..OF_CARDS },
    Definition { name: "worked_cards", cases: Listed(worked_cards), ..OF_CARDS },
];

/// What finished cards have in common.
const OF_CARDS: Definition = Definition {
    name: "",
    of: "journey",
    preamble: "\
use Rattle.formats.specs.Format.{Value}
use Rattle.overlay.specs.State.{State}
use Rattle.overlay.specs.Records.{shown}
use Rattle.journey.specs.Card.{card, card_of, card_value}
use Rattle.journey.specs.Enrich.{enrich_with_realtime}

abbrev finished : State → Value card → Value card
finished s v = card_value (enrich_with_realtime (shown s) (card_of v))
",
    cases: Listed(Vec::new),
};

fn finished(original: &Original, card: &Card) -> Equation {
    let right = original.card(card).literal();
    equation("finished", &[overlay(original).literal(), card.literal()], right)
}

fn enrich(random: &mut Random) -> Equation {
    let (original, card) = (state(random), card(random));
    // Most cards are met by nothing: some of them will do.
    if original.card(&card).status.0 == 0 && !random.once_in(4) {
        return enrich(random);
    }
    finished(&original, &card)
}

/// A second before midnight in Paris on 2026-01-01.
const LATE: i64 = 1_767_308_399;

/// Cards that a slip in a rule would finish otherwise, where chance seldom makes such a one.
fn worked_cards() -> Vec<Equation> {
    let leg = samples::leg;
    // A leg that no trip id finds.
    let by_route = |route: &str| Transit { trip: "f:9".into(), route: route.into(), ..leg() };
    let night = Transit { scheduled_departure: LATE, scheduled_arrival: LATE + 1, ..by_route("f:R") };
    let one_way = Transit { direction: Some(1), ..by_route("f:R") };
    let on = |date: &str, fields: &[Vec<u8>]| {
        let fields = [vec![trip_id("1"), start_date(date)], fields.to_vec()].concat();
        message_call(&[entity(&[trip_update(&[trip(&fields), trip_delay(60)])])])
    };
    let at = |fields: &[Vec<u8>]| message_call(&[trip_1(&[stop_time_update(fields)])]);
    let late = || departure(&[delay(30)]);
    vec![
        // The date of a leg is that of its departure.
        worked(&on("20260101", &[route_id("R")]), night.clone()),
        worked(&on("20260102", &[route_id("R")]), night),
        // A record without route, direction or date is found by none of them.
        worked(&on("20260101", &[]), by_route("f:")),
        worked(&on("20260101", &[route_id("R")]), one_way.clone()),
        worked(&on("20260101", &[route_id("R"), direction_id(1)]), one_way),
        worked(&on("", &[route_id("R")]), by_route("f:R")),
        // A route by its end, either way round, and from a ':' on.
        worked(&on("20260101", &[route_id("x:R")]), by_route("f:R")),
        worked(&on("20260101", &[route_id("R")]), by_route("f:x:f:R")),
        worked(&on("20260101", &[route_id("xR")]), by_route("f:R")),
        // A stop by its end, from a ':' on, and its sequence before it.
        worked(&at(&[stop_sequence(7), stop_id("x:A"), late()]), Transit { from: "A".into(), ..leg() }),
        worked(&at(&[stop_sequence(7), stop_id("xA"), late()]), Transit { from: "A".into(), ..leg() }),
        worked(&at(&[stop_sequence(1), stop_id("Z"), late()]), leg()),
        worked(&at(&[stop_sequence(5), stop_id("A"), late()]), leg()),
        // One end has realtime; an event without delay has the other's; a delay of 0 is in time.
        worked(&at(&[stop_sequence(5), arrival(&[delay(45)])]), leg()),
        worked(&at(&[stop_sequence(1), arrival(&[delay(45)])]), leg()),
        worked(&at(&[stop_sequence(1), departure(&[delay(0)])]), Transit { cancelled: true, ..leg() }),
    ]
}

/// The card of one leg after a call.
fn worked(call: &Call, leg: Transit) -> Equation {
    let mut panel = Panel::default();
    panel.run(call).expect("an answer");
    finished(&panel.original, &Card { departure: NOON, ..samples::card(vec![Leg::Transit(leg)]) })
}
