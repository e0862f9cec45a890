//! Lists of calls: at the bounds of each question, by chance, and with faults put around the calls, which have to be
//! found.
use crate::faults::FAULTS;
use crate::shrink::{script, smallest};
use crate::states::{Mismatch, Runs};
use crate::tally::Tally;
use differential::bounds::bounds;
use differential::panel::Call;
use differential::states::States;
use differential::turns::{lengths, Lists, Turn, OVERLAY};
use std::panic::{set_hook, take_hook};

/// Overlays at the bounds of each question: all that they ask for has room.
const ROOMY: usize = 1 << 20;

/// The most calls of a list.
const CALLS: usize = 30;

/// How many lists are run otherwise, and how many numbers and statuses no call gave: so many lists over small overlays,
/// and lists of so many calls over those of the published length.
pub fn run(seed: u64, lists: usize, calls: usize) -> usize {
    let hook = take_hook();
    // Where a window's edge lies inside a character the original panics: no answer, and no news.
    set_hook(Box::new(|_| ()));
    let differ = guards() + faults(seed) + small(seed, lists) + published(seed, calls);
    set_hook(hook);
    differ
}

/// At the bounds of each question, and by chance.
fn small(seed: u64, lists: usize) -> usize {
    let mut comparison = Comparison::of(Runs::of(States::of));
    let mut by_chance = Lists::new(seed);
    for list in bounds().into_iter().flat_map(|bound| [bound.within, bound.past].concat()) {
        let list: Vec<_> = list.into_iter().map(|call| by_chance.with_more(call)).collect();
        comparison.list(ROOMY, list);
    }
    for _ in 0..lists {
        let list = by_chance.list(CALLS);
        comparison.list(by_chance.length(&list), list);
    }
    comparison.print("overlays of 256 bytes to 1 MiB")
}

/// The panel's own calls: long lists among them by chance too.
fn published(seed: u64, calls: usize) -> usize {
    let mut comparison = Comparison::of(Runs::of(States::of_panel));
    let mut by_chance = Lists::new(seed);
    while comparison.tally.calls < calls {
        let list = by_chance.list(CALLS);
        comparison.list(OVERLAY, list);
    }
    comparison.print("overlays of the published length")
}

struct Comparison {
    runs: Runs,
    tally: Tally,
    lists: usize,
    differ: usize,
    first: Option<(usize, Vec<Turn>, Mismatch)>,
}

impl Comparison {
    fn of(runs: Runs) -> Self {
        Comparison { runs, tally: Tally::default(), lists: 0, differ: 0, first: None }
    }

    fn list(&mut self, length: usize, list: Vec<Turn>) {
        self.lists += 1;
        if let Err(what) = self.runs.list(length, &list, &mut self.tally) {
            self.differ += 1;
            self.first.get_or_insert((length, list, what));
        }
    }

    /// The first list that is run otherwise, made smaller; and what is otherwise about it.
    fn smallest(&mut self) -> Option<(usize, Vec<Turn>, Mismatch)> {
        let (length, list, what) = self.first.take()?;
        let mut differs = |list: &[Turn]| self.runs.list(length, list, &mut Tally::default()) == Err(what);
        Some((length, smallest(list, &mut differs), what))
    }

    fn print(&mut self, overlays: &str) -> usize {
        let missing = self.tally.print(self.lists, overlays);
        println!("  {} lists otherwise", self.differ);
        if let Some((length, list, what)) = self.smallest() {
            println!("{what}, {}", script(length, &list));
        }
        self.differ + missing
    }
}

/// How many faults are not found in some lists, or leave a list of more than a few calls.
fn faults(seed: u64) -> usize {
    const TRIED: usize = 200;
    const FEW: usize = 3;
    let mut missed = 0;
    for (what, faults) in FAULTS {
        let mut comparison = Comparison::of(Runs::of(States::of).with(*faults));
        let mut by_chance = Lists::new(seed);
        for _ in 0..TRIED {
            if comparison.differ == 0 {
                let list = by_chance.list(CALLS);
                comparison.list(by_chance.length(&list), list);
            }
        }
        let found = comparison.smallest().is_some_and(|(_, list, _)| list.len() <= FEW);
        if !found {
            println!("port: a fault is not found: {what}");
            missed += 1;
        }
    }
    println!(
        "port: {} faults put around the calls, {missed} not found or in no list of {FEW} calls",
        FAULTS.len()
    );
    missed
}

/// Questions 1 and 2: each buffer an element too short and too long, and a buffer of zeros, which is no overlay.
fn guards() -> usize {
    let feed = || b"f".to_vec();
    let calls = [
        Call::Message { feed: feed(), message: vec![] },
        Call::AlertSheet { feed: feed(), sheet: vec![1, 0] },
        Call::VehicleSheet { feed: feed(), sheet: vec![1, 0], clock: 0 },
        Call::Card { card: vec![1, 0, 0, 0, 0, 0, 0] },
        Call::Report { feed: feed() },
    ];
    let mut answers = Vec::new();
    for call in &calls {
        let buffers = (0..lengths(call, 0).len()).flat_map(|buffer| [Some((buffer, -1)), Some((buffer, 1))]);
        for wrong in [None].into_iter().chain(buffers) {
            let turn = Turn { wrong, ..call.clone().into() };
            let mut states = States::of(64);
            // Question 1 before question 2.
            answers.push((states.turn(&turn, call), if wrong.is_some() { 1 } else { 2 }));
            answers.push((states.run(&Call::Fresh), 0));
            answers.push((states.turn(&turn, call), u32::from(wrong.is_some())));
        }
        // An old overlay of another length than the published one; a fresh one likewise.
        for length in [OVERLAY - 1, OVERLAY, OVERLAY + 1] {
            let mut states = States::of_panel(OVERLAY);
            answers.push((states.run(&Call::Fresh), 0));
            states.old().resize(length, 0);
            answers.push((states.run(call), u32::from(length != OVERLAY)));
        }
    }
    for length in [OVERLAY - 1, OVERLAY, OVERLAY + 1] {
        answers.push((States::of_panel(length).run(&Call::Fresh), u32::from(length != OVERLAY)));
    }
    for length in 0..4 {
        answers.push((States::of(length).run(&Call::Fresh), u32::from(length < 3)));
    }
    let differ = answers.iter().filter(|(answer, expected)| *answer != Ok(*expected)).count();
    println!("port: {} answers to questions 1 and 2, {differ} otherwise", answers.len());
    differ
}
