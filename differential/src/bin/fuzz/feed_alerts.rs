//! Damaged messages through the call that makes a sheet of their alerts, each slice next to a page that no one may
//! touch, judged by prost and the plain writer.
use crate::damage::hurt;
use crate::memory::{bytes, Region, Side, INPUT};
use crate::shape;
use crate::watch::{self, moved};
use differential::feed_alerts::{sheet, SHEET};
use differential::form::Form;
use differential::gens::{alert_message, gained_alerts, many_alerts};
use differential::layout::zeros;
use differential::port::{feed_alerts, sheet_end};
use differential::questions::LONGEST_INPUT;
use differential::random::Random;
use differential::tree::Type;

type Called = fn(&[u8], &[u8], &mut [u8]) -> u32;

const FEEDS: &[&str] = &["f", "f", "g", "sixteen_bytes_id"];

/// Damaged messages of a round, which has random numbers of its own.
const CALLS: usize = 200;

/// One message in so many is as long as question 3 lets it be, or a byte longer.
const LONG: usize = 2_000;

struct Judge {
    call: Called,
    /// Slices behind which a page lies that no one may touch, and such before which one lies.
    sides: [[Region; 3]; 2],
    numbers: [u64; 9],
    differ: u64,
    first: Option<String>,
}

impl Judge {
    fn of(call: Called) -> Self {
        let regions = |side| [INPUT, INPUT, 2 * SHEET].map(|most| Region::of(side, most));
        let sides = [Side::Behind, Side::Before].map(regions);
        Judge { call, sides, numbers: [0; 9], differ: 0, first: None }
    }

    fn tried(&mut self, random: &mut Random, feed: &[u8], message: &[u8], length: usize) {
        moved();
        let [for_feed, for_message, for_out] = &mut self.sides[random.below(2)];
        let copied = |region: &mut Region, from: &[u8]| {
            let slice = bytes(region.lend(1, from.len()), 1);
            slice.copy_from_slice(from);
            slice
        };
        let (lent_feed, lent_message) = (copied(for_feed, feed), copied(for_message, message));
        let out = bytes(for_out.lend(1, length), 1);
        stain(random, out);
        let number = (self.call)(lent_feed, lent_message, out);
        self.numbers[(number as usize).min(8)] += 1;
        let due = if length == SHEET { sheet(feed, message) } else { Err(1) };
        let holds = match &due {
            _ if lent_feed != feed || lent_message != message => Err("the input is written"),
            Err(due) if number != u32::from(*due) => Err("another number"),
            Err(_) => zeros(out).then_some(()).ok_or("a refused call's output is not zeros"),
            Ok(_) if number != 0 => Err("another number"),
            Ok(sheet) => {
                let written = sheet.written();
                let same = out.starts_with(&written) && zeros(&out[written.len()..]);
                (same && sheet_end(out) == Some(written.len())).then_some(()).ok_or("another sheet")
            }
        };
        if let Err(what) = holds {
            self.differ += 1;
            let told =
                || format!("{what} ({number}): feed {}, {}", feed.escape_ascii(), message.escape_ascii());
            self.first.get_or_insert_with(told);
        }
    }

    fn rounds(&mut self, seed: u64, calls: u64) -> u64 {
        let mut rounds = 0;
        while self.numbers.iter().sum::<u64>() < calls {
            watch::round(rounds);
            self.round(seed, rounds);
            rounds += 1;
        }
        rounds
    }

    fn round(&mut self, seed: u64, number: u64) {
        let random = &mut Random::new(seed.rotate_left(32) ^ number);
        let feed = random.pick(FEEDS).as_bytes();
        let mut stock: Vec<_> = (0..8).map(|_| alert_message(random, feed)).collect();
        stock.push(many_alerts(random, feed));
        let pieces: Vec<_> = stock.iter().map(Vec::as_slice).collect();
        for _ in 0..CALLS {
            let message = random.pick(&pieces);
            let message = changed(random, message, &pieces);
            let feed = if random.once_in(20) { hurt(random, feed.into(), &pieces) } else { feed.into() };
            let wrong = random.once_in(40).then(|| random.pick(&[0, 1, SHEET - 1, SHEET + 1, 2 * SHEET]));
            self.tried(random, &feed, &message, wrong.unwrap_or(SHEET));
        }
    }
}

/// Other bytes than zeros in the output, some or all of them.
fn stain(random: &mut Random, out: &mut [u8]) {
    const ANY: u8 = 0xa5;
    let all = random.once_in(64);
    let front = if all { out.len() } else { out.len().min(4_096) };
    out[..front].fill(ANY);
    let place = random.below(out.len() + 1);
    [place, out.len().wrapping_sub(1)]
        .iter()
        .for_each(|place| out.get_mut(*place).map_or((), |byte| *byte = ANY));
}

fn changed(random: &mut Random, message: &[u8], others: &[&[u8]]) -> Vec<u8> {
    let mut message = match random.below(6) {
        0 => message.into(),
        1 => gained_alerts(random, message),
        2 | 3 => shape::message(random, Type::AlertMessage, message),
        _ => hurt(random, message.into(), others),
    };
    if random.once_in(LONG) {
        message.resize(LONGEST_INPUT + random.below(2), 0);
    }
    message
}

/// Whether no call is answered otherwise.
pub fn run(seed: u64, calls: u64) -> bool {
    let mut judge = Judge::of(feed_alerts);
    let rounds = judge.rounds(seed, calls);
    let tried = judge.numbers.iter().sum::<u64>();
    println!("fuzz alerts, seed {seed}: {tried} messages in {rounds} rounds, {} otherwise", judge.differ);
    let counts = judge.numbers.iter().enumerate().filter(|(_, count)| **count > 0);
    let told: Vec<_> = counts.map(|(number, count)| format!("{number}: {count}")).collect();
    println!("  alerts of a message: {}", told.join(", "));
    if let Some(first) = &judge.first {
        println!("the first: {first}");
    }
    judge.differ == 0
}

const FAULTS: [(&str, Called); 4] = [
    ("another number for a message", |feed, message, out| match feed_alerts(feed, message, out) {
        5 => 4,
        number => number,
    }),
    ("no zeros behind a sheet", |feed, message, out| {
        let number = feed_alerts(feed, message, out);
        out.last_mut().filter(|_| number == 0).map(|byte| *byte = 1);
        number
    }),
    ("a refused sheet left", |feed, message, out| {
        let number = feed_alerts(feed, message, out);
        out.first_mut().filter(|_| number == 4).map(|byte| *byte = 1);
        number
    }),
    ("another count of alerts", |feed, message, out| {
        let number = feed_alerts(feed, message, out);
        out.get_mut(1).filter(|_| number == 0).map(|byte| *byte ^= 1);
        number
    }),
];

/// The faults put around the call that are not found.
pub fn missed(seed: u64, calls: u64) -> Vec<&'static str> {
    let missed = FAULTS.iter().filter(|(_, call)| {
        let mut judge = Judge::of(*call);
        judge.rounds(seed, calls);
        judge.differ == 0
    });
    missed.map(|(what, _)| *what).collect()
}

/// How many faults there are.
pub const FAULTY: usize = FAULTS.len();
