//! Writes crates of antt, one for each definition, in which each case is an equation, closed by `refl`,
//! between the definition at closed inputs and the original's answer. The checker then computes it.
//! They are a repository of their own, in DIRECTORY; each one's file `stands_on` names the crates below it.
//! usage: definitions DIRECTORY SEED SHARE (in the repository's folder; of the cases one in SHARE is written)
mod alerts;
mod branches;
mod buffers;
mod decode;
mod feed_alerts;
mod formats;
mod journey;
mod opened;
mod overlay;
mod panel;
mod reading;
mod refusals;
mod rows;

use differential::random::Random;
use opened::{opened, stands_on};
use std::collections::BTreeSet;
use std::iter::repeat_with;
use std::panic::{catch_unwind, set_hook, take_hook, AssertUnwindSafe};
use std::path::{Path, PathBuf};
use std::{env, fs};

/// Cases to a file: the checker holds a file's terms at once.
const BATCH: usize = 50;

/// What a share has at least of each definition's cases.
const LEAST: usize = 25;

/// A definition and how cases of it are made.
pub struct Definition {
    /// What is computed; also its crate's name.
    pub name: &'static str,
    /// Its crate. What is marked unfoldable there, and in all that it stands on, is seen through.
    pub of: &'static str,
    /// The `use` lines beside the common ones, and what the cases share.
    pub preamble: &'static str,
    pub cases: Cases,
}

pub enum Cases {
    AtRandom(usize, fn(&mut Random) -> Equation),
    Listed(fn() -> Vec<Equation>),
}

/// The definition at an input, and the original's answer.
pub struct Equation {
    pub left: String,
    pub right: String,
}

pub fn equation(definition: &str, inputs: &[String], right: String) -> Equation {
    Equation { left: format!("{definition} {}", inputs.join(" ")), right }
}

const COMMON: &str = "\
use Rattle.std.specs.Prelude.{◌≡◌, refl, Bool, true, false, List, [], ◌∷◌, ◌⊎◌, ℕ, ℤ, pos, negsuc}
use Rattle.std.proofs.Common.{inl, inr}
use Rattle.std.proofs.Math.Option.{Option, none, some}
";

fn main() {
    let mut words = env::args().skip(1);
    let directory = PathBuf::from(words.next().expect("a directory"));
    let seed: u64 = words.next().and_then(|word| word.parse().ok()).expect("a seed");
    let share: usize = words.next().and_then(|word| word.parse().ok()).expect("a share");
    let known = [
        formats::DEFINITIONS,
        alerts::DEFINITIONS,
        rows::DEFINITIONS,
        branches::DEFINITIONS,
        decode::DEFINITIONS,
        feed_alerts::DEFINITIONS,
        overlay::DEFINITIONS,
        buffers::DEFINITIONS,
        journey::DEFINITIONS,
        panel::DEFINITIONS,
        refusals::DEFINITIONS,
    ];
    let mut listed = String::new();
    for definition in known.into_iter().flatten() {
        let crates = stands_on(definition.of);
        if crates.is_empty() {
            println!("{}: left out, there is no crate {}", definition.name, definition.of);
        } else {
            let cases = cases(definition, &mut Random::new(seed), share);
            write_cases(&directory.join("crates").join(definition.name), definition, &crates, &cases);
            listed += &format!("{}:\n", definition.name);
        }
    }
    write(&directory.join("crates.txt"), &listed);
}

/// One in `share` of the definition's cases, and no fewer than the least.
fn cases(definition: &Definition, random: &mut Random, share: usize) -> Vec<Equation> {
    let due = |count: usize| count.div_ceil(share).max(LEAST).min(count);
    match definition.cases {
        Cases::Listed(cases) => {
            let mut cases = cases();
            for _ in due(cases.len())..cases.len() {
                cases.swap_remove(random.below(cases.len()));
            }
            cases
        }
        Cases::AtRandom(count, case) => {
            // Where the original panics (a window's edge inside a character) there is no answer: the next.
            set_hook(Box::new(|_| ()));
            let answered = repeat_with(|| catch_unwind(AssertUnwindSafe(|| case(random))));
            let answered = answered.filter_map(Result::ok).take(due(count)).collect();
            drop(take_hook());
            answered
        }
    }
}

/// The definition's crate: a file for each batch of cases, and what there is of them.
fn write_cases(folder: &Path, definition: &Definition, crates: &BTreeSet<String>, cases: &[Equation]) {
    let (uses, unfolding) = opened(crates);
    let mut modules = String::new();
    for (batch, cases) in cases.chunks(BATCH).enumerate() {
        let mut text = format!("-- Cases of {}.\n{COMMON}{uses}{}", definition.name, definition.preamble);
        for (case, Equation { left, right }) in cases.iter().enumerate() {
            text += &format!("\ncase{case} : {left} ≡ {right}\n{unfolding}case{case} = refl\n");
        }
        write(&folder.join(format!("specs/Batch{batch}.antt")), &text);
        modules += &format!("pub mod Batch{batch}\n");
    }
    write(&folder.join("specs/Lib.antt"), &modules);
    write(&folder.join("src/lib.rt"), "// Only the cases in specs/.\n");
    let answers = |answer: &str| cases.iter().filter(|case| case.right == answer).count();
    let counted = ["true", "false", "none"].map(|answer| (answers(answer), answer));
    let counted =
        counted.iter().filter(|(count, _)| *count > 0).map(|(count, answer)| format!(", {count} {answer}"));
    write(&folder.join("count"), &format!("{} cases{}", cases.len(), counted.collect::<String>()));
    let stands_on: String = crates.iter().map(|name| format!("{name}\n")).collect();
    write(&folder.join("stands_on"), &stands_on);
}

fn write(file: &Path, text: &str) {
    fs::create_dir_all(file.parent().expect("a directory")).expect("the directory is made");
    fs::write(file, text).expect("the file is written");
}
