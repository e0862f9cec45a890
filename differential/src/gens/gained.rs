//! Messages that a supplier has added fields to.
use super::message::unlisted;
use super::*;
use crate::tree::{field_end, inner, listed, tree, Type, DEEPEST_GROUP};
use crate::wire::{key, number, overlong};

/// Numbers of which each listed message lists some.
const NUMBERS: &[u64] = &[1, 2, 3, 4, 5, 6, 7, 8, 15, 16, 99, 2_047, 499_999_999];

/// The same of the messages whose alerts are wanted.
const ALERT_NUMBERS: &[u64] = &[1, 2, 3, 4, 5, 6, 7, 8, 10, 11, 14, 16, 99, 2_047, 499_999_999];

/// The message with unlisted fields added before and after its fields, at every level; a broken one as it is.
pub fn gained(random: &mut Random, message: &[u8]) -> Vec<u8> {
    gained_by(random, Type::FeedMessage, message)
}

/// The same by the list of the messages whose alerts are wanted.
pub fn gained_alerts(random: &mut Random, message: &[u8]) -> Vec<u8> {
    gained_by(random, Type::AlertMessage, message)
}

fn gained_by(random: &mut Random, root: Type, message: &[u8]) -> Vec<u8> {
    match tree(root, message, DEEPEST_GROUP) {
        Some(_) => with_more(random, root, message),
        None => message.into(),
    }
}

fn with_more(random: &mut Random, message: Type, bytes: &[u8]) -> Vec<u8> {
    let mut out = added(random, message);
    let mut at = 0;
    while at < bytes.len() {
        let end = field_end(bytes, at).expect("a whole message");
        match inner(message, bytes, at) {
            Some((field, kind, place)) => {
                let fields = with_more(random, kind, &bytes[place]);
                let length = number(fields.len() as u64);
                let spare = if random.once_in(4) { random.below(11 - length.len()) } else { 0 };
                out.extend(key(field, 2));
                out.extend(overlong(fields.len() as u64, length.len() + spare));
                out.extend(fields);
            }
            None => out.extend(&bytes[at..end]),
        }
        out.extend(added(random, message));
        at = end;
    }
    out
}

fn numbers(message: Type) -> &'static [u64] {
    use Type::*;
    match message {
        FeedMessage | FeedHeader | FeedEntity | TripUpdate | TripDescriptor | StopTimeUpdate
        | StopTimeEvent => NUMBERS,
        _ => ALERT_NUMBERS,
    }
}

fn added(random: &mut Random, message: Type) -> Vec<u8> {
    let mut out = Vec::new();
    while random.once_in(4) {
        let number = random.pick(numbers(message));
        let field = unlisted(random, number, 3);
        // A group may be too deep to be a field.
        if listed(message, number).is_none() && field_end(&field, 0).is_some() {
            out.extend(field);
        }
    }
    out
}
