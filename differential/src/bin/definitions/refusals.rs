//! Cases of crate panel: question 1 for each buffer of each call, and which question decides where several
//! say no. What is expected is read from document 01: the least number of the faults that a call has.
use crate::panel::{answer, filled, term, OF_PANEL};
use crate::Cases::Listed;
use crate::{equation, Definition, Equation};
use differential::form::{Form, Text};
use differential::layout::overlay;
use differential::literal::{list, pairs, Literal};
use differential::messages::{arrival, stop_time_update, time};
use differential::panel::{Call, Panel};
use differential::papers::{AlertSheet, Leg, Transit, VehicleSheet};
use differential::questions::LONGEST_CARD;
use differential::samples::{alert, card, leg, trip_1, vehicle, NOON};

pub const DEFINITIONS: &[Definition] = &[
    Definition { name: "lengths", cases: Listed(lengths), ..OF_REFUSALS },
    Definition { name: "first_no", cases: Listed(first_no), ..OF_REFUSALS },
];

const OF_REFUSALS: Definition = Definition {
    name: "",
    preamble: "\
use Rattle.std.specs.Prelude.{◌++◌, replicate}
use Rattle.panel.specs.Questions.{Lengths}
use Rattle.panel.specs.Calls.{Call, fresh, message, alert_sheet, vehicle_sheet, card, report, Gave, gives}

abbrev lengths : ℕ → ℕ → Lengths
lengths n m = record {
  overlay = n;
  card = m;
  sheet = 0;
  work = record {
    message = 4 ∷ 2 ∷ [];
    alert_sheet = 3 ∷ [];
    vehicle_sheet = 1 ∷ 5 ∷ [];
    card = 2 ∷ 2 ∷ 6 ∷ [];
  };
}

abbrev everything : ℕ → ℕ → List ℕ → Call → ℕ × (List ℕ × List (List ℕ))
everything n m old c = let g = gives (lengths n m) old c in (g.number, (g.out, g.work))
",
    ..OF_PANEL
};

/// The working buffers that the cases publish.
fn published_work(call: &Call) -> &'static [usize] {
    match call {
        Call::Message { .. } => &[4, 2],
        Call::AlertSheet { .. } => &[3],
        Call::VehicleSheet { .. } => &[1, 5],
        Call::Card { .. } => &[2, 2, 6],
        Call::Fresh | Call::Report { .. } => &[],
    }
}

/// A call with the faults that a test takes, by the numbers of their questions.
type Kind = fn(&dyn Fn(u8) -> bool) -> Call;

/// The kinds of calls and the faults that each can have.
const KINDS: [(Kind, &[u8]); 6] = [
    (|_| Call::Fresh, &[1]),
    (message, &[1, 2, 4, 5, 6, 7]),
    (alert_sheet, &[1, 2, 4, 5, 7]),
    (vehicle_sheet, &[1, 2, 4, 5, 6, 7]),
    (card_of, &[1, 2, 4, 5, 6, 7, 8]),
    (|has| Call::Report { feed: feed(has) }, &[1, 2, 5]),
];

fn feed(has: &dyn Fn(u8) -> bool) -> Vec<u8> {
    if has(5) { "" } else { "f" }.into()
}

fn message(has: &dyn Fn(u8) -> bool) -> Call {
    let seconds = if has(6) { -1 } else { NOON };
    let mut message = trip_1(&[stop_time_update(&[arrival(&[time(seconds)])])]);
    message.extend(has(4).then_some(0x4c));
    Call::Message { feed: feed(has), message }
}

fn alert_sheet(has: &dyn Fn(u8) -> bool) -> Call {
    let mut sheet = AlertSheet { alerts: vec![alert()], ..AlertSheet::default() }.written();
    sheet.extend(has(4).then_some(0));
    Call::AlertSheet { feed: feed(has), sheet }
}

fn vehicle_sheet(has: &dyn Fn(u8) -> bool) -> Call {
    let vehicles = vec![vehicle("k", None, NOON)];
    let mut sheet = VehicleSheet { vehicles, ..VehicleSheet::default() }.written();
    sheet.extend(has(4).then_some(0));
    Call::VehicleSheet { feed: feed(has), sheet, clock: if has(6) { -1 } else { NOON } }
}

fn card_of(has: &dyn Fn(u8) -> bool) -> Call {
    let mode = if has(5) { Text(vec![b'x'; 65]) } else { leg().mode };
    let one = Transit { mode, direction: Some(if has(6) { 256 } else { 255 }), ..leg() };
    let mut card = card(vec![Leg::Transit(one); if has(7) { 17 } else { 1 }]).written();
    card.extend(has(4).then_some(0));
    if has(3) {
        card.resize(LONGEST_CARD + 1, 0);
    }
    Call::Card { card }
}

/// Buffers for a call: the old overlay, the published lengths, and the lengths that the call is given.
struct Setting {
    panel: Panel,
    call: Call,
    old: Vec<u8>,
    overlay: usize,
    card: usize,
    out: usize,
    work: Vec<usize>,
}

impl Setting {
    /// The buffers as published. Three feeds are there already, or four where a fifth is the fault.
    fn new(kind: Kind, has: &dyn Fn(u8) -> bool) -> Setting {
        let mut panel = Panel::default();
        for feed in (b'a'..=b'd').take(if has(7) { 4 } else { 3 }) {
            panel.run(&Call::Message { feed: vec![feed], message: vec![] });
        }
        let faultless = kind(&|_| false);
        let mut old = overlay(&panel.original).written();
        let longest = overlay(&panel.left(&faultless)).written().len().max(old.len()) + 2;
        old.resize(longest, 0);
        let card = match &faultless {
            Call::Card { .. } => answer(&mut panel.clone(), &faultless).1.len() - usize::from(has(8)),
            _ => 5,
        };
        let call = kind(has);
        let out = match call {
            Call::Card { .. } => card,
            Call::Report { .. } => 25,
            _ => longest,
        };
        let work = published_work(&call).to_vec();
        Setting { panel, call, old, overlay: longest, card, out, work }
    }

    /// That the call gives this number, and where that is 0 what the original writes.
    fn gives(mut self, number: u8) -> Equation {
        let written = if number == 0 { answer(&mut self.panel, &self.call) } else { (number, vec![]) };
        assert_eq!(written.0, number);
        let work: Vec<_> = self.work.iter().map(|length| vec![0_u8; *length]).collect();
        let right = pairs(&[number.literal(), filled(self.out, &written.1), list(&work)]);
        let lengths = [self.overlay.to_string(), self.card.to_string()].join(" ");
        equation("everything", &[lengths, list(&self.old), term(&self.call, self.out, &self.work)], right)
    }
}

/// Each buffer of each call as long as published, one shorter and one longer; a working buffer too few and
/// one too many.
fn lengths() -> Vec<Equation> {
    let mut cases = Vec::new();
    for (kind, faults) in KINDS {
        let mut case = |number: u8, change: &dyn Fn(&mut Setting)| {
            let mut setting = Setting::new(kind, &|_| false);
            change(&mut setting);
            cases.push(setting.gives(number));
        };
        case(0, &|_| ());
        case(1, &|setting| setting.out -= 1);
        case(1, &|setting| setting.out += 1);
        if faults.contains(&2) {
            case(1, &|setting| setting.old.truncate(setting.overlay - 1));
            case(1, &|setting| setting.old.push(0));
        }
        let buffers = published_work(&kind(&|_| false)).len();
        for buffer in 0..buffers {
            case(1, &|setting| setting.work[buffer] -= 1);
            case(1, &|setting| setting.work[buffer] += 1);
        }
        if buffers > 0 {
            case(1, &|setting| setting.work.truncate(buffers - 1));
            case(1, &|setting| setting.work.push(0));
        }
    }
    cases
}

/// Every set of faults that a call can have. A card of 65,537 bytes is not in form either.
fn first_no() -> Vec<Equation> {
    let subsets = |faults: &[u8]| -> Vec<Vec<u8>> {
        faults.iter().fold(vec![vec![]], |sets, fault| {
            let with = sets.iter().map(|set| [set.as_slice(), &[*fault]].concat()).collect();
            [sets, with].concat()
        })
    };
    let mut cases = Vec::new();
    for (kind, faults) in KINDS {
        cases.extend(subsets(faults).iter().map(|faults| with(kind, faults)));
    }
    cases.extend(subsets(&[1, 2]).iter().map(|faults| with(card_of, &[faults.as_slice(), &[3]].concat())));
    cases
}

/// The least number decides.
fn with(kind: Kind, faults: &[u8]) -> Equation {
    let mut setting = Setting::new(kind, &|fault| faults.contains(&fault));
    if faults.contains(&1) {
        setting.out += 1;
    }
    if faults.contains(&2) {
        setting.old[0] = 2;
    }
    setting.gives(faults.iter().min().copied().unwrap_or(0))
}
