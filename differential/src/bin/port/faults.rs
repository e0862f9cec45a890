//! Faults put around the calls, in the first run or in the second: a comparison that passes one over compares nothing.
use differential::layout::used;
use differential::panel::Call;
use differential::states::{Fault, States};

type Faults = (&'static str, [Option<Fault>; 2]);

const fn first(what: &'static str, fault: Fault) -> Faults {
    (what, [Some(fault), None])
}

pub const FAULTS: &[Faults] = &[
    first("the form's number for the texts'", |_, _, number| if number == 5 { 4 } else { number }),
    first("a refusal left out", |_, _, number| if number == 6 { 0 } else { number }),
    first("a card handed back unread", |states, call, number| {
        if let (Call::Card { card }, 0) = (call, number) {
            states.lent.card.fill(0);
            states.lent.card[..card.len()].copy_from_slice(card);
        }
        number
    }),
    first("a byte behind the card", |states, call, number| {
        if let (Call::Card { .. }, 0) = (call, number) {
            states.lent.card[65_535] = 1;
        }
        number
    }),
    first("a refused card's output left", |states, call, number| {
        if let (Call::Card { .. }, 1..) = (call, number) {
            states.lent.card[0] = 1;
        }
        number
    }),
    first("an invented count", |states, call, number| {
        if let (Call::Report { .. }, 0) = (call, number) {
            states.lent.report[8] ^= 1;
        }
        number
    }),
    first("a working word left", |states, call, number| {
        if let Call::Card { .. } = call {
            states.lent.card_work.known[4_095] = 1;
        }
        number
    }),
    first("the old overlay written", |states, call, number| {
        if let (Call::Card { .. }, 4) = (call, number) {
            states.old()[0] ^= 2;
        }
        number
    }),
    first("a byte behind the state", |states, call, number| {
        if let (Call::AlertSheet { .. }, 0) = (call, number) {
            *states.new().last_mut().expect("an overlay") = 1;
        }
        number
    }),
    first("messages passed over after the first", |states, call, number| {
        let old = used(states.old()).to_vec();
        if let (Call::Message { .. }, 0, true) = (call, number, old.len() > 3) {
            let new = states.new();
            new.fill(0);
            new[..old.len()].copy_from_slice(&old);
        }
        number
    }),
    ("added fields refused", [None, Some(refused_if_long)]),
    ("a card lost in the second run", [None, Some(no_card)]),
];

fn refused_if_long(states: &mut States, call: &Call, number: u32) -> u32 {
    match call {
        Call::Message { message, .. } if number == 0 && message.len() > 400 => {
            states.new().fill(0);
            3
        }
        _ => number,
    }
}

fn no_card(states: &mut States, call: &Call, number: u32) -> u32 {
    if let (Call::Card { .. }, 0) = (call, number) {
        states.lent.card.fill(0);
    }
    number
}
