//! Cases of crate alerts: which alerts reach a leg and apply to it, and the label.
use crate::Cases::{AtRandom, Listed};
use crate::{equation, Definition, Equation};
use differential::form::Text;
use differential::gens::{alert, alert_text, transit};
use differential::host::{self, Original};
use differential::literal::{list, option, truth, Literal};
use differential::papers::{Alert, AlertSheet, Leg, Transit};
use differential::random::Random;
use differential::routing::journey::{alert_applies_to_leg_with_mode, parts};
use differential::rt::overlay::FeedRtState;
use differential::samples;

pub const DEFINITIONS: &[Definition] = &[
    Definition { name: "applies", cases: AtRandom(1_000, applies), ..OF_APPLIES },
    Definition { name: "text_compatible", cases: AtRandom(300, text_compatible), ..OF_APPLIES },
    Definition { name: "road_traffic", cases: AtRandom(200, road_traffic), ..OF_APPLIES },
    Definition { name: "rail_like_mode", cases: Listed(rail_like_mode), ..OF_APPLIES },
    Definition { name: "product_code", cases: AtRandom(200, product_code), ..OF_APPLIES },
    Definition { name: "product_to_short", cases: Listed(product_to_short), ..OF_APPLIES },
    Definition { name: "route_refs_match", cases: AtRandom(200, route_refs_match), ..OF_APPLIES },
    Definition { name: "lines_in_text", cases: AtRandom(200, lines_in_text), ..OF_APPLIES },
    Definition { name: "secondary_context", cases: AtRandom(250, secondary_context), ..OF_APPLIES },
    Definition { name: "primary_context", cases: AtRandom(200, primary_context), ..OF_APPLIES },
    Definition {
        name: "candidates",
        of: "alerts",
        preamble: "use Rattle.alerts.specs.Index.{alert_candidates_for_leg}\n",
        cases: AtRandom(300, candidates),
    },
    Definition {
        name: "label",
        of: "alerts",
        preamble: "use Rattle.alerts.specs.Label.{label}\n",
        cases: AtRandom(150, label),
    },
];

/// What the definitions of one module have in common.
pub const OF_APPLIES: Definition = Definition {
    name: "",
    of: "alerts",
    preamble: "use Rattle.alerts.specs.Applies.{
  is_rail_like_mode, is_road_traffic_alert, product_code_token, idfm_product_to_short, route_refs_match, fold_alert_blob,
  commercial_lines_in_text, is_secondary_line_context, is_primary_context, alert_text_compatible_with_leg,
  alert_applies_to_leg_with_mode,
}
",
    cases: Listed(Vec::new),
};

const SHORT_NAMES: &[&str] = &["5", "14", "1", "4", "B", "D", "A", "T3", "T1", "T3A"];
const MODES: &[&str] =
    &["RAIL", "train", "Metro", "SUBWAY", "tram", "TRAMWAY", "rer", "BUS", "", "METRO ", "TRAMWAYS", "R"];

/// The codes of the original's table, and some that it does not have.
const CODES: &[&str] = &[
    "C01742", "C01743", "C01727", "C01728", "C01729", "C01371", "C01372", "C01373", "C01374", "C01375",
    "C01376", "C01377", "C01378", "C01379", "C01380", "C01381", "C01382", "C01383", "C01384", "C01389",
    "C01390", "C01391", "C01679", "c01742", "C01385", "C1371", "C001371", "C01370", "01742", "D01742", "",
];

fn applies(random: &mut Random) -> Equation {
    let (alert, leg) = (alert(random), transit(random));
    let ids =
        [&leg.trip, &leg.route, &leg.short_name, &leg.from, &leg.to, &leg.mode].map(|text| text.string());
    let [trip, route, short, from, to, mode] = &ids;
    let answer = alert_applies_to_leg_with_mode(&host::alert(&alert), trip, route, short, from, to, mode);
    let ids = ids.map(|id| id.literal()).join(" ");
    equation("alert_applies_to_leg_with_mode", &[alert.literal(), ids], truth(answer))
}

fn text_compatible(random: &mut Random) -> Equation {
    let (alert, short) = (alert(random), random.pick(SHORT_NAMES));
    let answer = parts::alert_text_compatible_with_leg(&host::alert(&alert), short);
    equation("alert_text_compatible_with_leg", &[alert.literal(), short.literal()], truth(answer))
}

fn road_traffic(random: &mut Random) -> Equation {
    let alert = alert(random);
    let answer = parts::is_road_traffic_alert(&host::alert(&alert));
    equation("is_road_traffic_alert", &[alert.literal()], truth(answer))
}

fn rail_like_mode() -> Vec<Equation> {
    let case =
        |mode: &&str| equation("is_rail_like_mode", &[mode.literal()], truth(parts::is_rail_like_mode(mode)));
    MODES.iter().map(case).collect()
}

fn product_code(random: &mut Random) -> Equation {
    let before = random.pick(&["", "x:", "STIF:Line::", "9", "é"]);
    let raw = [before, random.pick(CODES), random.pick(&["", ":", "1", "12", "/y"])].concat();
    equation("product_code_token", &[raw.literal()], option(&parts::product_code_token(&raw)))
}

fn product_to_short() -> Vec<Equation> {
    let case = |code: &&str| {
        equation("idfm_product_to_short", &[code.literal()], option(&parts::idfm_product_to_short(code)))
    };
    CODES.iter().map(case).collect()
}

fn route_refs_match(random: &mut Random) -> Equation {
    let (leg, informed) = (transit(random).route.string(), transit(random).route.string());
    let answer = parts::route_refs_match(&leg, &informed);
    equation("route_refs_match", &[leg.literal(), informed.literal()], truth(answer))
}

fn lines_in_text(random: &mut Random) -> Equation {
    let text = alert_text(random, 12);
    let answer = parts::commercial_lines_in_text(&parts::fold_alert_blob(&text));
    let blob = format!("(fold_alert_blob {})", text.literal());
    equation("commercial_lines_in_text", &[blob], list(&answer))
}

fn secondary_context(random: &mut Random) -> Equation {
    let (blob, short) = (parts::fold_alert_blob(&alert_text(random, 16)), random.pick(SHORT_NAMES));
    let answer = parts::is_secondary_line_context(&blob, short);
    equation("is_secondary_line_context", &[blob.literal(), short.literal()], truth(answer))
}

fn primary_context(random: &mut Random) -> Equation {
    let (blob, short) = (parts::fold_alert_blob(&alert_text(random, 12)), random.pick(SHORT_NAMES));
    let answer = parts::is_primary_context(&blob, short);
    equation("is_primary_context", &[blob.literal(), short.literal()], truth(answer))
}

fn candidates(random: &mut Random) -> Equation {
    let (alerts, leg) = (random.list(4, alert), transit(random));
    let mut state = FeedRtState::new("f");
    state.alerts = alerts.iter().map(host::alert).collect();
    for (number, alert) in state.alerts.iter_mut().enumerate() {
        alert.id = number.to_string();
    }
    state.rebuild_alert_index();
    let Transit { trip, route, from, to, .. } = &leg;
    let found = state.alert_candidates_for_leg(&trip.string(), &route.string(), &from.string(), &to.string());
    let numbers: Vec<u64> = found.iter().map(|alert| alert.id.parse().unwrap()).collect();
    let ids = [trip, route, from, to].map(Literal::literal).join(" ");
    equation("alert_candidates_for_leg", &[list(&alerts), ids], list(&numbers))
}

fn label(random: &mut Random) -> Equation {
    let mut alert = alert(random);
    if random.once_in(2) {
        alert.header = None;
        alert.description = Some(alert_text(random, 60).as_str().into());
    }
    equation("label", &[alert.literal()], left_on_card(&alert).literal())
}

/// The header that the alert leaves on a card whose only leg it names; nothing where it leaves none.
fn left_on_card(alert: &Alert) -> String {
    let mut original = Original::default();
    let alert = Alert { trips: vec!["f:1".into()], ..alert.clone() };
    original.alert_sheet("f", &AlertSheet { alerts: vec![alert], ..AlertSheet::default() });
    let leg = Transit { mode: "BUS".into(), ..samples::leg() };
    let finished = original.card(&samples::card(vec![Leg::Transit(leg)]));
    finished.headers.first().map_or(String::new(), Text::string)
}
