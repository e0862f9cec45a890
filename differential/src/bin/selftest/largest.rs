//! The largest overlay: every part as long as questions 5 to 7 let it be.
use crate::Tally;
use differential::form::{Form, One};
use differential::largest::feed;
use differential::layout::{held, Overlay};

pub fn run(tally: &mut Tally) {
    let overlay = Overlay { first: One, version: u64::MAX, feeds: vec![feed()] };
    let bytes = overlay.written();
    // The first byte, the version and the count of feeds stand beside four of them.
    let largest = 12 + 4 * (bytes.len() - 12);
    let answer = format!("{largest} bytes, held: {}", held(&bytes) == Some(overlay));
    tally.case(
        "largest overlay",
        "four feeds, all texts and lists full",
        &answer,
        "111398044 bytes, held: true",
    );
}
