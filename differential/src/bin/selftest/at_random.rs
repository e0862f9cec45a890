//! Random messages and lists of calls: the wire reader of document 01 beside prost, and the layout of
//! every state that calls leave.
use crate::Tally;
use differential::form::Form;
use differential::gens::{damaged, history, message};
use differential::host::Original;
use differential::layout::{held, overlay, said};
use differential::panel::{Answer, Panel};
use differential::papers::{Card, STATUSES};
use differential::questions::every;
use differential::random::Random;
use differential::rt::decode::decode_feed_message;
use differential::tree::{tree, Type, Value};
use std::collections::BTreeMap;

const MESSAGES: usize = 100_000;
const HISTORIES: usize = 10_000;

pub fn run(tally: &mut Tally) {
    messages(tally);
    histories(tally);
}

/// Prost takes what document 01's reader does, where groups go deeper and all texts are UTF-8.
fn messages(tally: &mut Tally) {
    const DEEPER: usize = 90;
    let mut random = Random::new(2);
    let (mut accepted, mut refused) = (0, BTreeMap::new());
    let mut differ = 0;
    for turn in 0..MESSAGES {
        let whole = message(&mut random);
        let message = if turn % 2 == 0 { whole } else { damaged(&mut random, whole) };
        let utf8 = |value: &Value| !matches!(value, Value::Text(text) if std::str::from_utf8(text).is_err());
        let expected = tree(Type::FeedMessage, &message, DEEPER)
            .is_some_and(|fields| every(&fields, &|field| utf8(&field.value)));
        differ += usize::from(decode_feed_message(&message).is_ok() != expected);
        match said(&mut Original::default(), "f", &message) {
            Ok(_) => accepted += 1,
            Err(number) => *refused.entry(number).or_insert(0) += 1,
        }
    }
    let input =
        format!("{MESSAGES} random ones, half of them damaged: {accepted} accepted, refused {refused:?}");
    tally.case("messages", &input, &format!("{differ} read otherwise by prost"), "0 read otherwise by prost");
}

/// Each state that calls leave is an overlay, and the one that its buffer holds.
fn histories(tally: &mut Tally) {
    let hook = std::panic::take_hook();
    // Where a window's edge lies inside a character the original panics: no answer, and no news.
    std::panic::set_hook(Box::new(|_| ()));
    let mut random = Random::new(3);
    let mut numbers = BTreeMap::new();
    let mut statuses = BTreeMap::new();
    let (mut calls, mut unanswered, mut differ) = (0, 0, 0);
    for _ in 0..HISTORIES {
        let mut panel = Panel::default();
        for call in history(&mut random, 6) {
            calls += 1;
            let Some(answer) = panel.run(&call) else {
                unanswered += 1;
                continue;
            };
            *numbers.entry(answer.number()).or_insert(0) += 1;
            if let Answer::Card(bytes) = answer {
                let card = Card::of(&bytes).expect("a card");
                *statuses.entry(STATUSES[card.status.0 as usize]).or_insert(0) += 1;
            }
        }
        let state = overlay(&panel.original);
        let buffer = [state.written(), vec![0; 9]].concat();
        differ += usize::from(held(&buffer) != Some(state));
    }
    std::panic::set_hook(hook);
    let input = format!("{calls} calls: numbers {numbers:?}, {unanswered} unanswered, cards {statuses:?}");
    tally.case("histories", &input, &format!("{differ} states not held"), "0 states not held");
}
