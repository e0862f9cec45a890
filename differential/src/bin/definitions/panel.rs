//! Cases of crate panel: lists of calls, with the number and every output byte of each.
use crate::Cases::{AtRandom, Listed};
use crate::{equation, Definition, Equation};
use differential::bounds::bounds;
use differential::form::Form;
use differential::gens::history;
use differential::layout;
use differential::literal::{list, pairs, Literal};
use differential::messages::{entity, header, start_date, timestamp, trip, trip_id, trip_update};
use differential::panel::{Answer, Call, Panel};
use differential::questions::LONGEST_CARD;
use differential::samples::{alerts_call, message_call, report_call, trip_1, vehicles_call, NOON};

pub const DEFINITIONS: &[Definition] = &[
    Definition { name: "histories", cases: AtRandom(200, |random| equal(&history(random, 5))), ..OF_PANEL },
    Definition { name: "questions", cases: Listed(questions), ..OF_PANEL },
    Definition { name: "reports", cases: Listed(reports), ..OF_PANEL },
];

/// What lists of calls have in common.
pub const OF_PANEL: Definition = Definition {
    name: "",
    of: "panel",
    preamble: "\
use Rattle.std.specs.Prelude.{map, ◌++◌, replicate}
use Rattle.panel.specs.Questions.{Lengths, no_work}
use Rattle.panel.specs.Calls.{Call, fresh, message, alert_sheet, vehicle_sheet, card, report, Gave, gives, run}

abbrev lengths : ℕ → ℕ → Lengths
lengths n m = record { overlay = n; card = m; sheet = 0; work = no_work }

abbrev given_on : List ℕ → ℕ → ℕ → List Call → List (ℕ × List ℕ)
given_on old n m calls = map (λ (g : Gave). (g.number, g.out)) (run (lengths n m) old calls)

abbrev given : ℕ → ℕ → List Call → List (ℕ × List ℕ)
given n m calls = given_on (gives (lengths n m) [] (fresh n)).out n m calls
",
    cases: Listed(Vec::new),
};

/// The bounds of the questions. Left out are inputs that the checker doesn't take: what question 3 refuses or
/// lets pass at 1,048,576 bytes, and a single message or vehicle sheet with as many entries as question 7 lets
/// pass. `panel/Laws/EachQuestion` and `panel/Laws/Seven` have those for every input.
fn questions() -> Vec<Equation> {
    let lists = bounds().into_iter().flat_map(|bound| [bound.within, bound.past]).flatten();
    let (computed, left): (Vec<_>, Vec<_>) = lists.partition(|calls| calls.last().is_some_and(taken));
    println!("bounds: {} lists of calls computed, {} left out", computed.len(), left.len());
    computed.iter().map(|calls| equal(calls)).collect()
}

/// Reports in which version, count and timestamp differ, of a feed with a dated trip and without.
fn reports() -> Vec<Equation> {
    let trips = |fields: &[Vec<u8>]| {
        let dated = entity(&[trip_update(&[trip(&[trip_id("2"), start_date("20260101")])])]);
        message_call(&[fields.concat(), trip_1(&[]), dated])
    };
    let at = |seconds: i64| trips(&[header(&[timestamp(seconds)])]);
    let sheet = || vehicles_call(vec![], NOON);
    let lists = [
        vec![report_call()],
        vec![trips(&[]), report_call()],
        vec![at(5), report_call()],
        vec![at(-1), report_call()],
        vec![at(i64::MIN), trips(&[]), report_call()],
        vec![at(5), sheet(), report_call()],
        vec![sheet(), at(5), report_call()],
        vec![at(5), alerts_call(vec![]), report_call()],
    ];
    lists.iter().map(|calls| equal(calls)).collect()
}

fn taken(call: &Call) -> bool {
    match call {
        Call::Message { message: input, .. } | Call::VehicleSheet { sheet: input, .. } => {
            input.len() <= 4_000
        }
        Call::AlertSheet { sheet: input, .. } | Call::Card { card: input } => input.len() <= 100_000,
        Call::Fresh | Call::Report { .. } => true,
    }
}

/// The calls on a fresh overlay; or, where one before the last is too long to be computed, the last on the
/// overlay that those before it left.
fn equal(calls: &[Call]) -> Equation {
    let mut panel = Panel::default();
    let computed = calls.iter().rposition(|call| !taken(call)).map_or(0, |long| long + 1);
    for call in &calls[..computed] {
        assert_eq!(panel.run(call), Some(Answer::Written));
    }
    let old = layout::overlay(&panel.original).written();
    let Buffers { overlay, card, answers } = buffers(&mut panel, &calls[computed..]);
    let length = |call: &Call| match call {
        Call::Card { .. } => card,
        Call::Report { .. } => 25,
        _ => overlay,
    };
    let calls = &calls[computed..];
    let gave = calls
        .iter()
        .zip(answers)
        .map(|(call, (number, written))| pairs(&[number.literal(), filled(length(call), &written)]) + " ∷ ");
    let right = format!("({}[])", gave.collect::<String>());
    let terms: String = calls.iter().map(|call| format!("{} ∷ ", term(call, length(call), &[]))).collect();
    let inputs = [overlay.to_string(), card.to_string(), format!("({terms}[])")];
    if computed == 0 {
        equation("given", &inputs, right)
    } else {
        equation(&format!("given_on {}", filled(overlay, &old)), &inputs, right)
    }
}

/// Lengths of overlay and card's output, a little more than what is written into them, and what calls give.
struct Buffers {
    overlay: usize,
    card: usize,
    answers: Vec<(u8, Vec<u8>)>,
}

fn buffers(panel: &mut Panel, calls: &[Call]) -> Buffers {
    let (mut overlay, mut card) = (layout::overlay(&panel.original).written().len() + 2, 5);
    let mut answers = Vec::new();
    for call in calls {
        let before = panel.clone();
        let (number, written) = answer(panel, call);
        match call {
            Call::Report { .. } => {}
            Call::Card { .. } if number == 8 => card = LONGEST_CARD,
            Call::Card { .. } => card = card.max(LONGEST_CARD.min(written.len() + 2)),
            // What question 7 refuses has room, and is refused for its counts alone.
            _ if number == 7 => overlay = overlay.max(layout::overlay(&before.left(call)).written().len()),
            _ => overlay = overlay.max(written.len() + 2),
        }
        answers.push((number, written));
    }
    Buffers { overlay, card, answers }
}

/// The bytes, and zeros up to a length.
pub fn filled(length: usize, bytes: &[u8]) -> String {
    format!("({} ++ replicate {} 0)", list(bytes), length - bytes.len())
}

/// The number that a call gives and what it writes.
pub fn answer(panel: &mut Panel, call: &Call) -> (u8, Vec<u8>) {
    let answer = panel.run(call).expect("an answer");
    let number = answer.number();
    let written = match answer {
        Answer::Refused(_) => vec![],
        Answer::Written => layout::overlay(&panel.original).written(),
        Answer::Card(card) => card,
        Answer::Report(report) => report.written(),
    };
    (number, written)
}

/// A call with the lengths of its output and its working buffers.
pub fn term(call: &Call, length: usize, work: &[usize]) -> String {
    let term = match call {
        Call::Fresh => "fresh".into(),
        Call::Message { feed, message } => format!("message {} {}", list(feed), list(message)),
        Call::AlertSheet { feed, sheet } => format!("alert_sheet {} {}", list(feed), list(sheet)),
        Call::VehicleSheet { feed, sheet, clock } => {
            format!("vehicle_sheet {} {} {}", list(feed), list(sheet), clock.literal())
        }
        Call::Card { card } => format!("card {}", list(card)),
        Call::Report { feed } => format!("report {}", list(feed)),
    };
    let work: Vec<_> = work.iter().map(|length| *length as u64).collect();
    let work = if matches!(call, Call::Fresh | Call::Report { .. }) { "".into() } else { list(&work) };
    format!("({term} {length} {work})")
}
