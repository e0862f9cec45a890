//! Random calls and lists of them, as demand 3 speaks of.
use super::*;
use crate::form::Form;
use crate::panel::Call;

/// A list of calls on a fresh overlay that ends in a card.
pub fn history(random: &mut Random, most: usize) -> Vec<Call> {
    let mut calls: Vec<_> = (0..random.below(most - 1) + 1).map(|_| any_call(random)).collect();
    calls.push(any_card(random));
    calls
}

pub fn any_card(random: &mut Random) -> Call {
    Call::Card { card: card(random).written() }
}

pub fn any_call(random: &mut Random) -> Call {
    let mut call = match random.below(16) {
        0..=6 => Call::Message { feed: feed(random), message: message(random) },
        7..=9 => Call::AlertSheet { feed: feed(random), sheet: alert_sheet(random).written() },
        10..=12 => Call::VehicleSheet {
            feed: feed(random),
            sheet: vehicle_sheet(random).written(),
            clock: feed_time(random) + random.pick(&[0, 899, 900, 901]),
        },
        13 | 14 => any_card(random),
        _ => Call::Report { feed: feed(random) },
    };
    if random.once_in(12) {
        damage(random, &mut call);
    }
    call
}

fn feed(random: &mut Random) -> Vec<u8> {
    match random.below(40) {
        0 => any(random, &["", "a:b", "a b", "seventeen-letters"]).into(),
        1 => any(random, &["g1", "g2", "g3", "sixteen--letters"]).into(),
        _ => any(random, FEEDS).into(),
    }
}

fn damage(random: &mut Random, call: &mut Call) {
    if let Call::Message { message: input, .. }
    | Call::AlertSheet { sheet: input, .. }
    | Call::VehicleSheet { sheet: input, .. }
    | Call::Card { card: input } = call
    {
        *input = damaged(random, std::mem::take(input));
    }
}
