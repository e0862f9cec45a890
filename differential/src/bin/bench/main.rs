//! What the calls take, as tables: beside the original, run in turn, and alone on the worst that the questions let in.
//! Each time is the best of many runs. usage: bench MESSAGE [SECTION..], a file that gets the message for other
//! decoders, and the tables that are asked for.
mod calls;
mod clock;
mod feed_alerts;
mod index;
mod inputs;
mod memory;
mod stack;
mod texts;
mod worst;

/// No text of an alert takes more than so many times what the original takes.
const TEXTS: f64 = 4.0;

type Section = (&'static str, fn() -> bool);

/// What each measures, and whether it is within its bounds. Memory first: what was given back is not given anew as
/// zeros.
const SECTIONS: [Section; 7] = [
    ("Memory and zeros", memory::memory),
    ("Calls beside the original", calls::calls),
    ("Alerts straight from the feed", feed_alerts::alerts),
    ("Alert texts", || texts::texts(TEXTS)),
    ("Growth", || calls::growth() & index::largest_in_time()),
    ("The worst legal inputs", worst::worst),
    ("Decoding alone", index::index),
];

fn main() {
    let mut words = std::env::args().skip(1);
    let message = words.next().expect("where the message goes");
    std::fs::write(message, inputs::full(0..500)).expect("a file");
    let named: Vec<_> = words.collect();
    let asked = |name: &str| named.is_empty() || named.iter().any(|word| word == name);
    let within = SECTIONS.iter().filter(|(name, _)| asked(name)).fold(true, |within, (name, section)| {
        println!("\n## {name}\n");
        section() & within
    });
    std::process::exit(i32::from(!within));
}
