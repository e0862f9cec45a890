//! The alert rules of the original read a second time, test by test, noting which side of each test a case
//! takes. Rows of tables are in `rows`.
use differential::papers::Alert;
use differential::tables::{lines, primary, secondary, MODES, PRODUCTS};
use std::collections::BTreeMap;

/// The tests, and the sides that inputs can take: yes, no.
pub const TESTS: &[(&str, &[bool])] = &[
    ("mode is rail-like", BOTH),
    ("alert is about road traffic", BOTH),
    ("TRAFIC ROUTIER", BOTH),
    ("INFO TRAFIC ROUTIER", NEVER),
    ("ARRET", BOTH),
    ("DEPLACE", BOTH),
    ("DÉPLACÉ", BOTH),
    ("DEPLAC", BOTH),
    ("CIRCULATION", BOTH),
    ("SENS DE CIRCULATION", NEVER),
    ("trip is dated", BOTH),
    ("trip's base is empty", BOTH),
    ("alert's trip is the leg's", BOTH),
    ("alert's trip is the base", BOTH),
    ("alert's trip ends with the base", BOTH),
    ("alert's trip has the base as its tail", NEVER),
    ("from stop hit", BOTH),
    ("to stop hit", BOTH),
    ("stop id is empty", BOTH),
    ("stop id's tail is empty", NEVER),
    ("alert's stop is the leg's", BOTH),
    ("stops' tails are alike", BOTH),
    ("stop piece is empty", BOTH),
    ("stop piece has a letter or digit", BOTH),
    ("a stop piece is found", BOTH),
    ("alert has no routes", BOTH),
    ("a route reference matches", BOTH),
    ("leg's route is empty", BOTH),
    ("alert's route is empty", BOTH),
    ("routes are equal", BOTH),
    ("leg's route has a code", BOTH),
    ("alert's route has a code", BOTH),
    ("codes are equal", BOTH),
    ("leg's tail is empty", NEVER),
    ("leg's tail has three bytes", BOTH),
    ("tails are alike", BOTH),
    ("route piece is empty", BOTH),
    ("a route piece is found", BOTH),
    ("part has five bytes", BOTH),
    ("part has at most eight bytes", BOTH),
    ("part begins with C", BOTH),
    ("part's rest is digits", BOTH),
    ("leg has a short name", BOTH),
    ("short name is empty", NEVER),
    ("name is empty", BOTH),
    ("names are alike", BOTH),
    ("name's route has no code", BOTH),
    ("name has at most four bytes", BOTH),
    ("product: alert's route has a code", BOTH),
    ("product: code has a line", BOTH),
    ("product: line is the leg's", BOTH),
    ("product: leg has this code", NEVER),
    ("product: leg has this line", NEVER),
    ("route hit", BOTH),
    ("text is compatible", BOTH),
    ("text is tested", BOTH),
    ("text is empty", NEVER),
    ("text names no line", BOTH),
    ("text names the leg's line", BOTH),
    ("leg's line is secondary", BOTH),
    ("named line is another", BOTH),
    ("other line is primary", BOTH),
];
const BOTH: &[bool] = &[true, false];
/// A yes is settled by an earlier test.
const NEVER: &[bool] = &[false];

/// The sides that cases have taken.
#[derive(Default)]
pub struct Met(BTreeMap<&'static str, [bool; 2]>);

impl Met {
    fn test(&mut self, label: &str, holds: bool) -> bool {
        let known = TESTS.iter().find(|(known, _)| *known == label);
        let (label, sides) = known.unwrap_or_else(|| panic!("no test {label}"));
        assert!(sides.contains(&holds), "{label}: a side that was held to be out of reach");
        self.0.entry(label).or_default()[usize::from(holds)] = true;
        holds
    }

    /// The sides that no case took, and how many there are.
    pub fn left(&self) -> (Vec<String>, usize) {
        let sides = || TESTS.iter().flat_map(|(label, sides)| sides.iter().map(move |side| (*label, *side)));
        let taken = |label: &str, side: bool| self.0.get(label).is_some_and(|met| met[usize::from(side)]);
        let left = sides().filter(|(label, side)| !taken(label, *side));
        (left.map(|(label, side)| format!("{label}: {side}")).collect(), sides().count())
    }
}

#[derive(Clone)]
pub struct Leg {
    pub trip: &'static str,
    pub route: &'static str,
    pub short: &'static str,
    pub from: &'static str,
    pub to: &'static str,
    pub mode: &'static str,
}

pub fn applies(met: &mut Met, alert: &Alert, leg: &Leg) -> bool {
    let rail = MODES.contains(&leg.mode.to_ascii_uppercase().as_str());
    if met.test("mode is rail-like", rail) {
        let road = road(met, alert);
        if met.test("alert is about road traffic", road) {
            return false;
        }
    }
    if trip_hit(met, alert, leg.trip) {
        return true;
    }
    let from = stop_hit(met, alert, leg.from);
    if met.test("from stop hit", from) {
        return true;
    }
    let to = stop_hit(met, alert, leg.to);
    if met.test("to stop hit", to) {
        return true;
    }
    if met.test("alert has no routes", alert.routes.is_empty()) {
        return false;
    }
    let hit = route_hit(met, alert, leg);
    if !met.test("route hit", hit) {
        return false;
    }
    let compatible = compatible(met, alert, leg.short);
    met.test("text is compatible", compatible)
}

fn given(text: &Option<differential::form::Text>) -> String {
    text.as_ref().map_or(String::new(), |text| text.string())
}

fn road(met: &mut Met, alert: &Alert) -> bool {
    let texts = [&alert.header, &alert.description, &alert.cause].map(given);
    let text = texts.join(" ").to_ascii_uppercase();
    let mut has = |word: &str| met.test(word, text.contains(word));
    has("TRAFIC ROUTIER")
        || has("INFO TRAFIC ROUTIER")
        || has("ARRET")
            && (has("DEPLACE") || has("DÉPLACÉ") || has("DEPLAC"))
            && (has("CIRCULATION") || has("SENS DE CIRCULATION"))
}

fn trip_hit(met: &mut Met, alert: &Alert, trip: &str) -> bool {
    let dated = trip.rsplit_once('@').map(|(base, _)| base);
    met.test("trip is dated", dated.is_some());
    let base = dated.unwrap_or(trip);
    if met.test("trip's base is empty", base.is_empty()) {
        return false;
    }
    alert.trips.iter().map(|id| id.string()).any(|id| {
        met.test("alert's trip is the leg's", id == trip)
            || met.test("alert's trip is the base", id == base)
            || met.test("alert's trip ends with the base", id.ends_with(&format!(":{base}")))
            || met.test(
                "alert's trip has the base as its tail",
                id.rsplit_once(':').is_some_and(|(_, tail)| tail == base),
            )
    })
}

fn stop_hit(met: &mut Met, alert: &Alert, id: &str) -> bool {
    if met.test("stop id is empty", id.is_empty()) {
        return false;
    }
    let wanted = stop_tail(met, id);
    if met.test("stop id's tail is empty", wanted.is_empty()) {
        return false;
    }
    alert.stops.iter().map(|stop| stop.string()).any(|stop| {
        let tail = stop_tail(met, &stop);
        met.test("alert's stop is the leg's", stop == id)
            || met.test("stops' tails are alike", tail.eq_ignore_ascii_case(&wanted))
    })
}

fn stop_tail(met: &mut Met, id: &str) -> String {
    let piece = id.rsplit([':', '/']).find(|piece| {
        !met.test("stop piece is empty", piece.is_empty())
            && met.test(
                "stop piece has a letter or digit",
                piece.chars().any(|letter| letter.is_ascii_alphanumeric()),
            )
    });
    met.test("a stop piece is found", piece.is_some());
    piece.unwrap_or(id).into()
}

fn route_hit(met: &mut Met, alert: &Alert, leg: &Leg) -> bool {
    let routes: Vec<_> = alert.routes.iter().map(|route| route.string()).collect();
    let matches = routes.iter().any(|route| references_match(met, leg.route, route));
    if met.test("a route reference matches", matches) {
        return true;
    }
    let short = leg.short.trim();
    met.test("leg has a short name", !short.is_empty())
        && routes.iter().any(|route| by_name(met, short, route) || by_product(met, leg.route, short, route))
}

fn references_match(met: &mut Met, leg: &str, alert: &str) -> bool {
    if met.test("leg's route is empty", leg.is_empty())
        || met.test("alert's route is empty", alert.is_empty())
    {
        return false;
    }
    if met.test("routes are equal", leg == alert) {
        return true;
    }
    let codes = (code(met, leg), code(met, alert));
    met.test("leg's route has a code", codes.0.is_some());
    met.test("alert's route has a code", codes.1.is_some());
    if let (Some(leg), Some(alert)) = codes {
        return met.test("codes are equal", leg == alert);
    }
    let (leg, alert) = (segment(met, leg), segment(met, alert));
    !met.test("leg's tail is empty", leg.is_empty())
        && met.test("leg's tail has three bytes", leg.len() >= 3)
        && met.test("tails are alike", leg.eq_ignore_ascii_case(&alert))
}

fn segment(met: &mut Met, id: &str) -> String {
    let piece = id.rsplit([':', '/']).find(|piece| !met.test("route piece is empty", piece.is_empty()));
    met.test("a route piece is found", piece.is_some());
    piece.unwrap_or(id).into()
}

fn code(met: &mut Met, id: &str) -> Option<String> {
    let part = id.split(|letter: char| !letter.is_ascii_alphanumeric()).find(|part| {
        met.test("part has five bytes", part.len() >= 5)
            && met.test("part has at most eight bytes", part.len() <= 8)
            && met.test("part begins with C", part.starts_with(['C', 'c']))
            && met.test("part's rest is digits", part[1..].chars().all(|digit| digit.is_ascii_digit()))
    });
    part.map(str::to_ascii_uppercase)
}

fn alike(met: &mut Met, short: &str, name: &str) -> bool {
    !met.test("short name is empty", short.is_empty())
        && !met.test("name is empty", name.trim().is_empty())
        && met.test("names are alike", short.eq_ignore_ascii_case(name.trim()))
}

fn by_name(met: &mut Met, short: &str, route: &str) -> bool {
    let name = segment(met, route);
    let coded = code(met, route).is_some();
    alike(met, short, &name)
        && met.test("name's route has no code", !coded)
        && met.test("name has at most four bytes", name.len() <= 4)
}

fn line_of(code: &str) -> Option<&'static str> {
    PRODUCTS.iter().find(|(known, _)| *known == code).map(|(_, line)| *line)
}

fn by_product(met: &mut Met, leg: &str, short: &str, route: &str) -> bool {
    let alerts = code(met, route);
    met.test("product: alert's route has a code", alerts.is_some());
    let Some(alerts) = alerts else { return false };
    let line = line_of(&alerts);
    met.test("product: code has a line", line.is_some());
    let Some(line) = line else { return false };
    let same = alike(met, short, line);
    let legs = code(met, leg);
    met.test("product: line is the leg's", same)
        && (met.test("product: leg has this code", legs.as_ref() == Some(&alerts))
            || met.test("product: leg has this line", legs.and_then(|code| line_of(&code)) == Some(line)))
}

fn compatible(met: &mut Met, alert: &Alert, short: &str) -> bool {
    let short = short.trim().to_ascii_uppercase();
    if !met.test("text is tested", !short.is_empty()) {
        return true;
    }
    let text = [&alert.header, &alert.description].map(given).join(" ");
    let text = differential::routing::journey::parts::fold_alert_blob(&text);
    if met.test("text is empty", text.is_empty()) {
        return true;
    }
    let named = lines(&text);
    if met.test("text names no line", named.is_empty()) {
        return true;
    }
    if !met.test("text names the leg's line", named.contains(&short)) {
        return false;
    }
    let secondary = !secondary(&text, &short).is_empty();
    !(met.test("leg's line is secondary", secondary)
        && named.iter().any(|line| {
            met.test("named line is another", *line != short)
                && met.test("other line is primary", !primary(&text, line).is_empty())
        }))
}
