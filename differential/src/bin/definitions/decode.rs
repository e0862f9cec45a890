//! Cases of crates realtime and decode: the judgement of a message, and what it leaves of a feed's trips.
use crate::Cases::AtRandom;
use crate::{equation, Definition, Equation};
use differential::gens::{damaged, message};
use differential::host::Original;
use differential::layout::{said, Said};
use differential::literal::{list, truth, Literal};
use differential::questions;
use differential::random::Random;

pub const DEFINITIONS: &[Definition] = &[
    Definition {
        name: "judgement",
        of: "realtime",
        preamble: "\
use Rattle.realtime.specs.Tree.{tree}
use Rattle.realtime.specs.Schema.{feed}
use Rattle.realtime.specs.Judge.{asked, rules}
use Rattle.realtime.specs.declared.Verdict.{Verdict}
",
        cases: AtRandom(300, judgement),
    },
    Definition {
        name: "leaves",
        of: "decode",
        preamble: "\
use Rattle.basics.specs.Options.{Maybe, bind_o}
use Rattle.realtime.specs.Tree.{Tree, tree}
use Rattle.realtime.specs.Schema.{feed}
use Rattle.decode.specs.Leaves.{Trips, differential, timestamp_in, leaves}

abbrev after : List ℕ → Trips → Option (Bool × (Maybe ℤ × Trips))
after m old = bind_o (tree feed 0 m) (λ t. some (differential t, (timestamp_in t, leaves (102 ∷ []) t old)))
",
        cases: AtRandom(300, leaves),
    },
];

fn any_message(random: &mut Random) -> Vec<u8> {
    let whole = message(random);
    if random.once_in(4) {
        damaged(random, whole)
    } else {
        whole
    }
}

fn judgement(random: &mut Random) -> Equation {
    let message = any_message(random);
    let verdict = match questions::message(b"f", &message) {
        Ok(_) => "Fine",
        Err(4) => "Broken",
        Err(5) => "Text",
        Err(_) => "Time",
    };
    let left = format!("(tree feed 0 {})", list(&message));
    equation("asked rules 0", &[left], format!("Verdict.{verdict}"))
}

fn leaves(random: &mut Random) -> Equation {
    let mut original = Original::default();
    let old = said(&mut original, "f", &message(random)).map_or(vec![], |said| said.trips);
    let message = any_message(random);
    let right = match said(&mut original, "f", &message) {
        Ok(Said { differential, timestamp, trips }) => {
            format!("some ({}, ({}, {}))", truth(differential), timestamp.literal(), list(&trips))
        }
        Err(4) => "none".into(),
        Err(_) => panic!("refused by a question that is not asked here"),
    };
    equation("after", &[list(&message), list(&old)], right)
}
