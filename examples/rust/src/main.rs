//! A journey's card by a supplier's message, and by the alerts of another one: reads them from files and prints the
//! card.
//!
//!     cargo run --offline -- north north-2.pb journey.card
//!     cargo run --offline -- city city-1.pb journey.card city.alerts.pb
use mipsuqal::{Card, Form, Panel};
use std::error::Error;
use std::fs;

fn main() -> Result<(), Box<dyn Error>> {
    let words: Vec<String> = std::env::args().collect();
    let [_, feed, message, journey, alerts @ ..] = &words[..] else {
        return Err("usage: card FEED MESSAGE CARD [ALERTS]".into());
    };
    let mut panel = Panel::new();
    panel.message(feed, &fs::read(message)?)?;
    for alerts in alerts {
        panel.alert_message(feed, &fs::read(alerts)?)?;
    }
    let card = panel.card(&Card::decode(&fs::read(journey)?)?)?;

    println!("{card}");
    for leg in card.transit_legs() {
        match leg.departure_delay {
            Some(delay) => println!("{} leaves {delay} s late", leg.trip),
            None => println!("nothing is known of {}", leg.trip),
        }
    }
    Ok(())
}
