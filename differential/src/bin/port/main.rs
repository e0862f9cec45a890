//! The port's calls beside the original and the second reading, on random inputs: by a seed, and with as many overlays
//! damaged, lists of calls run, and alerts and legs paired as are asked for.
mod alerts;
mod big;
mod codes;
mod damaged;
mod ends;
mod faults;
mod feed_alerts;
mod fields;
mod guards;
mod lists;
mod shrink;
mod states;
mod tally;
mod trips;

/// Overlays of which the gate changes each byte, and lists of calls that it runs.
const OVERLAYS: usize = 150;
const LISTS: usize = 15_000;

/// Alerts and legs that the gate pairs.
const PAIRS: usize = 100_000;

/// Calls at the published lengths in the gate.
const CALLS: usize = 300;

fn main() {
    let mut words = std::env::args().skip(1).map(|word| word.parse().expect("a number"));
    let seed = words.next().unwrap_or(5);
    let overlays = words.next().map_or(OVERLAYS, |overlays| overlays as usize);
    let lists = words.next().map_or(LISTS, |lists| lists as usize);
    let pairs = words.next().map_or(PAIRS, |pairs| pairs as usize);
    let calls = words.next().map_or(CALLS, |calls| calls as usize);
    let forms = fields::run(seed) + ends::run(seed);
    let messages = trips::run(seed) + feed_alerts::run(seed);
    let inputs = forms + guards::run() + messages + codes::run(seed) + alerts::run(seed, pairs);
    let differ = inputs + damaged::run(seed, overlays) + lists::run(seed, lists, calls);
    std::process::exit(i32::from(differ > 0));
}
