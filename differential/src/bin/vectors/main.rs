//! Writes the fixed lists of calls that the program `replay_vectors` replays without any Rust, and what it must write of
//! each: the numbers by document 01's second reading, and the sum of every byte that is told, by the original's
//! answers. usage: vectors SCRIPTS STDOUT
mod named;

use differential::bounds::bounds;
use differential::form::Form;
use differential::layout::overlay;
use differential::panel::{Answer, Call, Panel};
use differential::papers::{Card, STATUSES};
use differential::samples::{leg, leg_call, report_call};
use differential::turns::{lengths, Lists, Turn};
use std::collections::BTreeMap;
use std::fs::write;

/// The length of an overlay in `replay_vectors`, and what it lends for what is told.
const OVERLAY: usize = 16_384;
const TOLD: usize = 262_144;

/// A script of more bytes than this would make the repository large.
const SHORT: usize = 4_000;

const SEED: u64 = 20_261_116;
const BY_CHANCE: usize = 170;
const CALLS: usize = 12;

fn main() {
    let files: Vec<_> = std::env::args().skip(1).collect();
    let [scripts, stdout] = &files[..] else { panic!("usage: vectors SCRIPTS STDOUT") };
    // Where a window's edge lies inside a character the original panics: no answer, and no news.
    std::panic::set_hook(Box::new(|_| ()));
    let mut vectors = Vectors::default();
    for (name, list) in named::lists() {
        let kept = vectors.add(&name, &list.into_iter().map(Turn::from).collect::<Vec<_>>());
        assert!(kept, "no answer to {name}");
    }
    vectors.at_bounds();
    vectors.by_chance();
    vectors.print();
    write(scripts, &vectors.scripts).expect("a file to write");
    write(stdout, &vectors.lines).expect("a file to write");
}

#[derive(Default)]
struct Vectors {
    count: usize,
    scripts: Vec<u8>,
    lines: String,
    numbers: BTreeMap<u8, usize>,
    statuses: BTreeMap<&'static str, usize>,
}

impl Vectors {
    /// Short lists, and for questions 3 and 8 the shortest that there are; a report and a card ask what is left.
    fn at_bounds(&mut self) {
        for bound in bounds() {
            for (side, lists) in [("within", bound.within), ("past", bound.past)] {
                for list in lists {
                    let is_card = matches!(list.last(), Some(Call::Card { .. }));
                    let calls = list.into_iter().chain([report_call(), leg_call(leg())]);
                    let list: Vec<_> = calls.map(Turn::from).collect();
                    let long = is_card && matches!((bound.question, side), (3, "past") | (8, _));
                    if long || script(&list).len() <= SHORT {
                        self.add(&format!("question {}, {}, {side}", bound.question, bound.what), &list);
                    }
                }
            }
        }
    }

    fn by_chance(&mut self) {
        let mut lists = Lists::new(SEED);
        let mut added = 0;
        while added < BY_CHANCE {
            let list: Vec<_> = lists.list(CALLS).into_iter().map(within_what_is_lent).collect();
            if script(&list).len() <= SHORT && self.add(&format!("by chance {}", added + 1), &list) {
                added += 1;
            }
        }
    }

    /// False where the original has no answer, or what is told has no room.
    fn add(&mut self, name: &str, list: &[Turn]) -> bool {
        let mut panel = Panel::default();
        let told: Option<Vec<_>> = list.iter().map(|turn| told(&mut panel, turn)).collect();
        let Some(told) = told else { return false };
        let bytes = told.concat();
        if bytes.len() > TOLD {
            return false;
        }
        self.count += 1;
        self.lines += &format!("{name}:");
        for (turn, told) in list.iter().zip(&told) {
            *self.numbers.entry(told[0]).or_default() += 1;
            self.lines += &format!(" {}", told[0]);
            if let (Call::Card { .. }, 0) = (&turn.call, told[0]) {
                *self.statuses.entry(status(&told[1..])).or_default() += 1;
            }
        }
        self.lines += &format!(", {}\n", sum(&bytes));
        let script = script(list);
        let [low, middle, high, ..] = script.len().to_le_bytes();
        self.scripts.extend([u8::try_from(name.len()).expect("a short name"), low, middle, high]);
        self.scripts.extend(name.bytes().chain(script));
        true
    }

    fn print(&self) {
        let Vectors { count, scripts, numbers, statuses, .. } = self;
        println!("{count} lists, {} bytes; numbers {numbers:?}, statuses {statuses:?}", scripts.len());
    }
}

/// No byte of an overlay can be changed in a replay, and what is lent can only be too long.
fn within_what_is_lent(turn: Turn) -> Turn {
    Turn { spoilt: None, wrong: turn.wrong.map(|(buffer, _)| (buffer, -1)), ..turn }
}

/// A list in the form of `replay_script/Script: script`.
fn script(list: &[Turn]) -> Vec<u8> {
    let mut bytes = Vec::new();
    number(&mut bytes, list.len());
    list.iter().for_each(|turn| add_call(&mut bytes, turn));
    bytes
}

fn add_call(bytes: &mut Vec<u8>, turn: &Turn) {
    let none = Vec::new();
    let (kind, feed, input, clock) = match &turn.call {
        Call::Fresh => (0, &none, &none, 0),
        Call::Message { feed, message } => (1, feed, message, 0),
        Call::AlertSheet { feed, sheet } => (2, feed, sheet, 0),
        Call::VehicleSheet { feed, sheet, clock } => (3, feed, sheet, *clock),
        Call::Card { card } => (4, &none, card, 0),
        Call::Report { feed } => (5, feed, &none, 0),
    };
    bytes.push(kind);
    for text in [feed, input] {
        number(bytes, text.len());
        bytes.extend(text);
    }
    clock.write(bytes);
    let lengths = lent(turn);
    number(bytes, lengths[0]);
    number(bytes, lengths.len() - 1);
    lengths[1..].iter().for_each(|length| number(bytes, *length));
}

fn number(bytes: &mut Vec<u8>, n: usize) {
    (n as u64).write(bytes);
}

/// The lengths of a call's output and working buffers.
fn lent(turn: &Turn) -> Vec<usize> {
    let mut lengths = lengths(&turn.call, OVERLAY);
    if let Some((buffer, by)) = turn.wrong {
        lengths[buffer] = lengths[buffer].wrapping_add_signed(by);
    }
    lengths
}

/// What is told of a call: its number, and of a card or report its whole output.
fn told(panel: &mut Panel, turn: &Turn) -> Option<Vec<u8>> {
    let answer = answered(panel, turn)?;
    let mut bytes = vec![answer.number()];
    if let Call::Card { .. } | Call::Report { .. } = turn.call {
        bytes.resize(1 + lent(turn)[0], 0);
    }
    match answer {
        Answer::Card(card) => bytes[1..][..card.len()].copy_from_slice(&card),
        Answer::Report(report) => bytes[1..].copy_from_slice(&report.written()),
        Answer::Refused(_) | Answer::Written => {}
    }
    Some(bytes)
}

fn answered(panel: &mut Panel, turn: &Turn) -> Option<Answer> {
    if turn.wrong.is_some() {
        return Some(Answer::Refused(1));
    }
    let before = panel.clone();
    let answer = panel.run(&turn.call)?;
    if answer == Answer::Written && overlay(&panel.original).written().len() > OVERLAY {
        *panel = before;
        return Some(Answer::Refused(7));
    }
    Some(answer)
}

/// Adler-32 (RFC 1950).
fn sum(bytes: &[u8]) -> u32 {
    let (mut low, mut high) = (1u32, 0u32);
    for byte in bytes {
        low = (low + u32::from(*byte)) % 65_521;
        high = (high + low) % 65_521;
    }
    high << 16 | low
}

fn status(output: &[u8]) -> &'static str {
    let card = Card::read(&mut differential::form::Reader(output)).expect("a finished card");
    STATUSES[usize::from(card.status.0)]
}
