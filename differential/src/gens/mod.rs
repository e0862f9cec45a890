//! Random inputs from a seed: ids come from small stocks and times lie near each other, so that
//! look-ups hit, keys collide and alerts apply; some values lie at a bound or past it.
mod alert_message;
mod alert_text;
mod call;
mod gained;
mod message;
mod of_a_trip;
mod paper;

pub use alert_message::{alert_message, common_alert_message, many_alerts};
pub use alert_text::alert_text;
pub use call::{any_call, any_card, history};
pub use gained::{gained, gained_alerts};
pub use message::message;
pub use of_a_trip::{full_card, of_a_trip};
pub use paper::{alert, card, transit};
pub use paper::{wild_alert_sheet, wild_card, wild_vehicle_sheet};

use crate::random::Random;
use paper::{alert_sheet, vehicle_sheet};

const FEEDS: &[&str] = &["f", "f", "f", "f", "f", "f", "f", "f", "g", "a@b", "ff"];
const TRIPS: &[&str] =
    &["1", "1", "1", "1", "1", "2", "3", "1@20260101", "#r=f:R&d=&sd=&st=", "C01375", "", "x:1"];
const ROUTES: &[&str] = &[
    "R",
    "R",
    "x:R",
    "f:R",
    "f",
    "ROU",
    "rou",
    "C01375",
    "c01375",
    "C01742",
    "STIF:Line::C01375:",
    "5",
    "B",
    "",
    "x/5",
];
const STOPS: &[&str] = &["A", "A", "B", "C", "x:A", "A:", "a", "x/A", "--", "STIF:StopPoint:Q:A:", ""];
const DATES: &[&str] = &["20260101", "20260101", "20260101", "20260102", "20251231", "20260701", ""];
const CLOCKS: &[&str] = &["08:00:00", "8:00", ""];
const MODES: &[&str] = &["METRO", "Rail", "tram", "RER", "BUS", "subway", "Tramway", "", " METRO"];
const SHORT_NAMES: &[&str] = &["5", "14", "1", "B", "A", "T3", "T3a", "t1", " 5 ", "", "N12", "R"];

/// Near midnight in Paris of days that DATES has, and the ends of what is scheduled.
const DAYS: &[i64] = &[1_767_222_000, 1_767_265_200, 1_767_308_400, 1_782_943_200];
const SCHEDULED_ENDS: [i64; 2] = [946_684_800, 2_145_916_799];
const FEED_TIME_ENDS: [i64; 2] = [0, 4_102_444_800];

fn any(random: &mut Random, stock: &[&str]) -> String {
    random.pick(stock).to_string()
}

/// An id as cards and sheets have it: mostly with a feed's prefix, sometimes dated, often the commonest.
fn named(random: &mut Random, stock: &[&str]) -> String {
    if random.once_in(3) {
        return format!("{}:{}", FEEDS[0], stock[0]);
    }
    let raw = any(random, stock);
    let dated = if random.once_in(8) { format!("{raw}@{}", any(random, DATES)) } else { raw };
    match random.below(24) {
        0 => dated,
        1 => any(random, FEEDS),
        _ => format!("{}:{dated}", any(random, FEEDS)),
    }
}

fn near(random: &mut Random, time: i64) -> i64 {
    time + random.pick(&[0, 0, 1, -1, 60, -60, 90, 3_600, -7_200])
}

fn scheduled(random: &mut Random) -> i64 {
    if random.once_in(16) {
        return random.pick(&SCHEDULED_ENDS);
    }
    let day = random.pick(DAYS);
    near(random, day)
}

fn feed_time(random: &mut Random) -> i64 {
    if random.once_in(10) {
        return random.pick(&FEED_TIME_ENDS);
    }
    let time = scheduled(random);
    near(random, time)
}

fn delay(random: &mut Random) -> i64 {
    random.pick(&[0, 0, 30, 60, -60, 600, i64::from(i32::MAX), i64::from(i32::MIN)])
}

fn sequence(random: &mut Random) -> u64 {
    random.pick(&[0, 1, 1, 2, 3, 5, u64::from(u32::MAX)])
}

/// The bytes with a few of them changed, cut out, put in, doubled or cut off.
pub fn damaged(random: &mut Random, mut bytes: Vec<u8>) -> Vec<u8> {
    for _ in 0..1 + random.below(3) {
        let place = random.below(bytes.len() + 1);
        let end = bytes.len().min(place + random.below(8));
        match random.below(6) {
            0 => bytes.truncate(place),
            1 => bytes.insert(place, random.bits() as u8),
            2 => drop(bytes.drain(place..end)),
            3 => {
                let stretch = bytes[place..end].to_vec();
                bytes.splice(end..end, stretch);
            }
            _ if place < bytes.len() => match random.below(3) {
                0 => bytes[place] = random.bits() as u8,
                1 => bytes[place] ^= 1 << random.below(8),
                _ => bytes[place] = bytes[place].wrapping_add(1),
            },
            _ => {}
        }
    }
    bytes
}
