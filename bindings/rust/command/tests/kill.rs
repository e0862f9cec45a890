//! The command killed at any time: what it said was accepted is there, and what it was at is there whole or not at all.
mod common;

use common::{message, Scratch};
use serde_json::Value;
use std::process::Stdio;
use std::thread::sleep;
use std::time::Duration;

const TRIPS: u64 = 1_500;
const TURNS: u64 = 24;

fn trips(at: &Scratch) -> u64 {
    let report: Value = serde_json::from_str(&at.said(&["report", "f", "--json"])).unwrap();
    report["trip_update_count"].as_u64().unwrap()
}

fn name(turn: u64) -> String {
    format!("late-{turn}")
}

/// Runs a message, and kills it after a while; whether it said that it was accepted.
fn accepted(at: &Scratch, turn: u64, life: Duration) -> bool {
    let file = at.write("next.pb", &message(true, &[name(turn)], 3));
    let mut child = at.command(&["message", "f", &file]).stdout(Stdio::null()).spawn().unwrap();
    sleep(life);
    child.kill().unwrap(); // SIGKILL; of one that has ended already, nothing
    child.wait().unwrap().success()
}

#[test]
fn killed_at_any_time() {
    let at = Scratch::new("kill");
    let base: Vec<String> = (0..TRIPS).map(|k| format!("base-{k}")).collect();
    let file = at.write("base.pb", &message(false, &base, 8));
    at.said(&["message", "f", &file]);
    let (mut there, mut said, mut killed, mut chance) = (TRIPS, Vec::new(), 0, 7u64);
    // How long it is left alive: longer after a kill, shorter after a whole run, so that most kills come near its end.
    let mut limit = Duration::from_millis(100);
    for turn in 0..TURNS {
        chance = chance.wrapping_mul(6_364_136_223_846_793_005).wrapping_add(1_442_695_040_888_963_407);
        let part = (chance >> 33) as f64 / f64::from(1u32 << 31);
        let told = accepted(&at, turn, limit.mul_f64(0.5 + part));
        limit = limit.mul_f64(if told { 0.8 } else { 1.2 });
        let now = trips(&at);
        assert!(
            now == there + 1 || (now == there && !told),
            "turn {turn}: {there} trips, then {now}; told {told}"
        );
        said.extend(told.then_some(turn));
        killed += u64::from(!told);
        there = now;
    }
    for turn in &said {
        assert!(at.said(&["records", &name(*turn)]).contains("stop, arrival late 180"), "{turn}");
    }
    assert!(
        killed > 3 && said.len() > 3,
        "{killed} killed, {} said: the times do not fit this machine",
        said.len()
    );
    println!("{killed} killed, {} said, {} there", said.len(), there - TRIPS);
}
