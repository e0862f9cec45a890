//! Random messages with alerts: alerts, texts, translations, selectors and trips that merge, values that are
//! overwritten, deleted entities, unlisted fields of every kind, and values at the bounds of questions 5 and 7.
use super::message::{delimited, mixed, varint};
use super::*;

/// What a message is made of: how long an id may be with the feed's prefix, and whether the original's
/// `apply_service_alerts` has to read the same of it (one translation, no unlisted field, nothing that is refused).
#[derive(Clone, Copy)]
struct Made {
    id: usize,
    common: bool,
}

pub fn alert_message(random: &mut Random, feed: &[u8]) -> Vec<u8> {
    let made = Made { id: 63_usize.saturating_sub(feed.len()), common: false };
    let most = random.pick(&[1, 2, 2, 5]);
    message(random, made, most)
}

/// One that the original reads as this call does.
pub fn common_alert_message(random: &mut Random, feed: &[u8]) -> Vec<u8> {
    let most = random.pick(&[1, 3, 6]);
    message(random, Made { id: 63_usize.saturating_sub(feed.len()), common: true }, most)
}

/// As many alerts, or ids of a list, as question 7 lets pass, and some more or less.
pub fn many_alerts(random: &mut Random, feed: &[u8]) -> Vec<u8> {
    let mut out = alert_message(random, feed);
    let selector = |random: &mut Random| {
        let field = random.pick(&[2, 2, 5]);
        let id = random.pick(&["a", "b", ""]);
        let chosen = delimited(random, field, id.as_bytes());
        delimited(random, 5, &chosen)
    };
    if random.once_in(2) {
        let ids: Vec<_> = (0..30 + random.below(40)).map(|_| selector(random)).collect();
        let (first, second) = ids.split_at(random.below(ids.len()));
        let alerts = [first, second].map(|ids| delimited(random, 5, &ids.concat())).concat();
        out.extend(delimited(random, 2, &alerts));
    } else {
        for _ in 0..250 + random.below(12) {
            let fields = if random.once_in(40) { varint(random, 2, 1) } else { vec![] };
            let fields = [fields, delimited(random, 5, &[])].concat();
            out.extend(delimited(random, 2, &fields));
        }
    }
    out
}

fn message(random: &mut Random, made: Made, most: usize) -> Vec<u8> {
    let parts = random.list(most, |random| {
        let fields = entity(random, made);
        delimited(random, 2, &fields)
    });
    around(random, made, parts, &[1, 3])
}

/// The parts in any order; where fields may be added, with some of them.
fn around(random: &mut Random, made: Made, parts: Vec<Vec<u8>>, unlisted: &[u64]) -> Vec<u8> {
    if made.common {
        return parts.concat();
    }
    mixed(random, parts, unlisted)
}

fn entity(random: &mut Random, made: Made) -> Vec<u8> {
    let alerts = if random.once_in(4) { random.below(4) } else { 1 };
    let mut parts: Vec<_> = (0..alerts)
        .map(|_| {
            let fields = alert(random, made);
            delimited(random, 5, &fields)
        })
        .collect();
    while random.once_in(4) {
        let value = random.pick(&[0, 0, 1, 2, 1 << 32]);
        parts.push(varint(random, 2, value));
    }
    around(random, made, parts, &[1, 3, 4])
}

fn alert(random: &mut Random, made: Made) -> Vec<u8> {
    let mut parts = random.list(4, |random| {
        let fields = selector(random, made);
        delimited(random, 5, &fields)
    });
    for field in [10, 11] {
        let texts = if random.once_in(4) { random.below(3) } else { 1 };
        for _ in 0..if made.common { texts.min(1) } else { texts } {
            let fields = translated(random, made, field);
            parts.push(delimited(random, field, &fields));
        }
    }
    around(random, made, parts, &[1, 6, 7, 8, 14])
}

fn translated(random: &mut Random, made: Made, of: u64) -> Vec<u8> {
    let translations = if random.once_in(3) { random.below(4) } else { 1 };
    let translations = if made.common { translations.min(1) } else { translations };
    let parts = (0..translations).map(|_| {
        let fields = translation(random, made, of);
        delimited(random, 1, &fields)
    });
    let parts = parts.collect();
    around(random, made, parts, &[2])
}

fn translation(random: &mut Random, made: Made, of: u64) -> Vec<u8> {
    let texts = if made.common || !random.once_in(5) { 1 } else { random.below(3) };
    let mut parts: Vec<_> = (0..texts)
        .map(|_| {
            let text = if made.common { said(random).into() } else { any_text(random, of) };
            delimited(random, 1, &text)
        })
        .collect();
    if random.once_in(2) {
        let language = random.pick(&["fr", "de", "en", ""]);
        parts.push(delimited(random, 2, language.as_bytes()));
    }
    around(random, made, parts, &[2, 3])
}

fn said(random: &mut Random) -> String {
    format!("{}{}", random.pick(&["A", "Métro 5", "RER B", "😀"]), alert_text(random, 4))
}

/// The text of a header, 10, or of a description, 11: now and then empty, at its bound, or no UTF-8.
fn any_text(random: &mut Random, of: u64) -> Vec<u8> {
    let most = if of == 10 { 512 } else { 2_048 };
    match random.below(60) {
        0 => random.pick::<&[u8]>(&[&[0xff], &[0xc3], &[0xc0, 0x80], &[0xed, 0xa0, 0x80], &[0xf5]]).into(),
        1 => vec![b'x'; most + random.below(2)],
        2 => [vec![b'x'; most - 2], "é".into()].concat(),
        3..=10 => Vec::new(),
        _ => said(random).into(),
    }
}

fn selector(random: &mut Random, made: Made) -> Vec<u8> {
    let parts = random.list(4, |random| match random.below(3) {
        0 => id(random, made, 2, ROUTES),
        1 => id(random, made, 5, STOPS),
        _ => {
            let ids = random.list(2, |random| id(random, made, 1, TRIPS));
            let fields = around(random, made, ids, &[2, 3, 4, 5, 6]);
            delimited(random, 4, &fields)
        }
    });
    around(random, made, parts, &[1, 3, 6])
}

/// An id; now and then at the bound of its length, or with a byte that no id has.
fn id(random: &mut Random, made: Made, field: u64, stock: &[&str]) -> Vec<u8> {
    let text = match random.below(if made.common { 60 } else { 80 }) {
        0 => vec![b'~'; made.id],
        60 => vec![b' '; made.id + 1],
        61 => vec![random.pick(&[31, 127, 0xe9])],
        _ => any(random, stock).into(),
    };
    delimited(random, field, &text)
}
