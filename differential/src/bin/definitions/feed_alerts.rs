//! Cases of crate alerts_feed: the judgement of a message whose alerts are wanted, and the sheet of its alerts, beside
//! prost with the call's own list and the plain writer of sheets.
use crate::Cases::{AtRandom, Listed};
use crate::{equation, Definition, Equation};
use differential::feed_alerts::{rows, sheet};
use differential::gens::{alert_message, damaged, gained_alerts};
use differential::literal::{list, Literal};
use differential::questions;
use differential::random::Random;

pub const DEFINITIONS: &[Definition] = &[
    Definition {
        name: "alert_judgement",
        of: "alerts_feed",
        preamble: "\
use Rattle.realtime.specs.Tree.{tree}
use Rattle.realtime.specs.Schema.{feed, alert_message}
use Rattle.realtime.specs.Judge.{asked, rules_by}
use Rattle.realtime.specs.declared.Verdict.{Verdict}
",
        cases: AtRandom(100, judgement),
    },
    Definition { name: "feed_alerts", of: "alerts_feed", preamble: SHEETS, cases: AtRandom(100, at_random) },
    Definition { name: "feed_alerts_rows", of: "alerts_feed", preamble: SHEETS, cases: Listed(listed) },
];

/// The sheet of feed `f`.
const SHEETS: &str = "\
use Rattle.basics.specs.Options.{bind_o}
use Rattle.formats.specs.Format.{Value}
use Rattle.realtime.specs.Tree.{tree}
use Rattle.realtime.specs.Schema.{feed, alert_message}
use Rattle.alerts.specs.Alert.{alert_sheet}
use Rattle.alerts_feed.specs.Sheet.{sheet_in}

abbrev sheet_of : List ℕ → Option (Value alert_sheet)
sheet_of m = bind_o (tree feed alert_message m) (λ t. some (sheet_in (102 ∷ []) t))
";

fn any_message(random: &mut Random) -> Vec<u8> {
    let whole = alert_message(random, b"f");
    match random.below(4) {
        0 => damaged(random, whole),
        1 => gained_alerts(random, &whole),
        _ => whole,
    }
}

/// An id of feed `f` has at most 62 bytes.
fn judgement(random: &mut Random) -> Equation {
    let message = any_message(random);
    let verdict = match questions::alert_message(b"f", &message) {
        Ok(_) => "Fine",
        Err(4) => "Broken",
        Err(_) => "Text",
    };
    let left = format!("(tree feed alert_message {})", list(&message));
    equation("asked (rules_by 62) alert_message", &[left], format!("Verdict.{verdict}"))
}

fn sheet_of(message: &[u8]) -> Equation {
    let right = match sheet(b"f", message) {
        Ok(sheet) => format!("some {}", sheet.literal()),
        Err(4) => "none".into(),
        Err(_) => panic!("refused by a question that is not asked here"),
    };
    equation("sheet_of", &[list(message)], right)
}

fn at_random(random: &mut Random) -> Equation {
    sheet_of(&any_message(random))
}

/// The rows of feed `f` that are short.
fn listed() -> Vec<Equation> {
    let is_asked = |row: &rows::Row| matches!(row.due, Ok(_) | Err(4)) && row.message.len() <= 400;
    let rows = rows::rows().into_iter().filter(|row| row.feed == b"f" && is_asked(row));
    rows.map(|row| sheet_of(&row.message)).collect()
}
