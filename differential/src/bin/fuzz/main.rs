//! Random damage, guided by structure, through the port's compiled calls, on memory with pages next to each slice
//! that no one may touch. usage: fuzz SIDE SEED CALLS, where SIDE is `behind`, `before`, `heap`, `exported` for the
//! panel's own calls at the published length, `alerts` for the alerts of messages, on both sides, or `faults`:
//! whether faults put around the calls are found.
mod damage;
mod faults;
mod feed_alerts;
mod judge;
mod memory;
mod shape;
mod watch;

use damage::{changed, hurt};
use differential::gens::history;
use differential::lent::{exported, for_tests, Calls};
use differential::panel::Call;
use differential::random::Random;
use differential::turns::{input, OVERLAY};
use faults::{past_the_end, FAULTS};
use judge::{Judge, Old};
use memory::{Memory, Side};
use std::process::Command;

/// Lengths of overlays for tests.
const LENGTHS: &[usize] = &[4_096, 4_096, 1_024, 1_024, 256, 64, 3];

/// States that a round keeps, the last ones.
const STATES: usize = 6;

/// Damaged calls on the states of a round.
const CALLS: usize = 200;

/// States and calls that damage begins from.
struct Stock {
    states: Vec<Old>,
    calls: Vec<Call>,
}

/// A list of calls as they are; the states that they leave.
fn stocked(judge: &mut Judge, random: &mut Random, length: usize) -> Stock {
    let mut old = Old::of(vec![0; length]);
    let mut calls = vec![Call::Fresh];
    (0..2).for_each(|_| calls.extend(history(random, 8)));
    let mut states = Vec::new();
    for call in &calls {
        if let Some(left) = judge.tried(random, call, &old, &|_| 0) {
            old = Old::of(left);
            states.push(old.clone());
            // At the published length a state is long.
            states.drain(..states.len().saturating_sub(STATES));
        }
    }
    Stock { states, calls }
}

/// A state of the stock, now and then damaged or of another length.
fn state(random: &mut Random, stock: &Stock, pieces: &[&[u8]]) -> Old {
    let old = &stock.states[random.below(stock.states.len())];
    let (mut buffer, length) = match (random.below(8), &old.state) {
        (0, _) => (hurt(random, old.buffer.clone(), pieces), old.buffer.len()),
        (1, Some(state)) => (shape::state(random, state.clone()), old.buffer.len()),
        (2, _) if random.once_in(4) => (old.buffer.clone(), random.below(old.buffer.len() + 8)),
        _ => return old.clone(),
    };
    buffer.resize(length, 0);
    Old::of(buffer)
}

/// One length that is wrong, now and then.
fn wrong_length(random: &mut Random) -> impl Fn(usize) -> isize {
    let place = random.below(9);
    let by = if random.once_in(16) { random.pick(&[-1, 1, -25, 2, isize::MIN]) } else { 0 };
    move |other| if other == place { by } else { 0 }
}

/// A round has random numbers of its own, so that it can be had again by its number.
fn round(judge: &mut Judge, seed: u64, number: u64) {
    let mut random = Random::new(seed.rotate_left(32) ^ number);
    let random = &mut random;
    let length = if judge.published { OVERLAY } else { random.pick(LENGTHS) };
    let stock = stocked(judge, random, length);
    let pieces: Vec<_> = stock.calls.iter().map(|call| input(call)).collect();
    if stock.states.is_empty() {
        return;
    }
    for _ in 0..if judge.published { 10 } else { CALLS } {
        // The first makes an overlay: it has nothing to damage.
        let call = &stock.calls[if random.once_in(50) { 0 } else { 1 + random.below(stock.calls.len() - 1) }];
        let call = if random.once_in(12) { call.clone() } else { changed(random, call.clone(), &pieces) };
        let old = state(random, &stock, &pieces);
        let by = wrong_length(random);
        judge.tried(random, &call, &old, &by);
    }
}

/// Rounds until so many calls are made; how many rounds.
fn run(judge: &mut Judge, seed: u64, calls: u64) -> u64 {
    let mut rounds = 0;
    while judge.tried_in_all() < calls {
        watch::round(rounds);
        round(judge, seed, rounds);
        rounds += 1;
    }
    rounds
}

/// Whether each fault is found, and a byte touched past an end.
fn faults_found(seed: u64, calls: u64) -> bool {
    let missed = FAULTS.iter().filter(|(_, faulty)| {
        let mut judge = Judge::new(*faulty, Memory::of(Side::Behind, LENGTHS[0]), false);
        run(&mut judge, seed, calls);
        judge.differ == 0
    });
    let missed: Vec<_> = missed.map(|(name, _)| *name).chain(feed_alerts::missed(seed, calls / 4)).collect();
    let this = std::env::current_exe().expect("this program");
    let told = Command::new(this).args(["past-the-end", "1", "1"]).output().expect("a run");
    let stopped = told.status.code() == Some(1) && told.stderr.starts_with(b"fuzz: signal 11");
    let faults = FAULTS.len() + feed_alerts::FAULTY;
    println!("fuzz: {faults} faults, not found: {missed:?}; a byte past an end: found {stopped}");
    missed.is_empty() && stopped
}

fn main() {
    let words: Vec<_> = std::env::args().skip(1).collect();
    let [side, seed, calls] = words.as_slice() else { panic!("usage: fuzz SIDE SEED CALLS") };
    let (seed, most): (u64, u64) = (seed.parse().expect("a seed"), calls.parse().expect("a number of calls"));
    watch::begin(seed);
    let (calls, memory): (Calls, Memory) = match side.as_str() {
        "exported" => (exported, Memory::of(Side::Behind, OVERLAY)),
        "behind" => (for_tests, Memory::of(Side::Behind, LENGTHS[0])),
        "before" => (for_tests, Memory::of(Side::Before, LENGTHS[0])),
        "heap" => (for_tests, Memory::of(Side::Heap, LENGTHS[0])),
        "past-the-end" => (past_the_end, Memory::of(Side::Behind, LENGTHS[0])),
        "alerts" => std::process::exit(i32::from(!feed_alerts::run(seed, most))),
        "faults" => std::process::exit(i32::from(!faults_found(seed, most))),
        _ => panic!("another side"),
    };
    let mut judge = Judge::new(calls, memory, side == "exported");
    let rounds = run(&mut judge, seed, most);
    let tried = judge.tried_in_all();
    println!("fuzz {side}, seed {seed}: {tried} calls in {rounds} rounds, {} otherwise", judge.differ);
    judge.print();
    std::process::exit(i32::from(judge.differ > 0));
}
