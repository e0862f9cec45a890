//! A state and files of a test's own, and the command run on them.
#![allow(dead_code)] // Each test takes what it needs.
use std::path::{Path, PathBuf};
use std::process::{Command, Output};
use std::{env, fs};

pub const MORNING: &str = concat!(env!("CARGO_MANIFEST_DIR"), "/../../../crates/ride/data");
pub const CLOCK: &str = "1794809100";

/// A directory that goes with the test.
pub struct Scratch(pub PathBuf);

impl Scratch {
    pub fn new(name: &str) -> Scratch {
        let place = env::temp_dir().join(format!("mipsuqal-{name}-{}", std::process::id()));
        fs::create_dir_all(&place).unwrap();
        Scratch(place)
    }

    pub fn path(&self, name: &str) -> String {
        self.0.join(name).to_str().unwrap().into()
    }

    pub fn write(&self, name: &str, bytes: &[u8]) -> String {
        fs::write(self.0.join(name), bytes).unwrap();
        self.path(name)
    }

    pub fn command(&self, words: &[&str]) -> Command {
        let mut command = Command::new(env!("CARGO_BIN_EXE_mipsuqal"));
        command.env("MIPSUQAL_STATE", self.path("state")).args(words);
        command
    }

    pub fn run(&self, words: &[&str]) -> Output {
        self.command(words).output().unwrap()
    }

    /// What an accepted command prints.
    pub fn said(&self, words: &[&str]) -> String {
        let output = self.run(words);
        assert!(output.status.success(), "{words:?}: {}", String::from_utf8_lossy(&output.stderr));
        String::from_utf8(output.stdout).unwrap()
    }

    /// The exit status and the words of a command that fails.
    pub fn failed(&self, words: &[&str]) -> (i32, String) {
        let output = self.run(words);
        assert!(!output.status.success(), "{words:?}");
        (output.status.code().unwrap(), String::from_utf8(output.stderr).unwrap())
    }
}

impl Drop for Scratch {
    fn drop(&mut self) {
        fs::remove_dir_all(&self.0).unwrap();
    }
}

pub fn morning(name: &str) -> String {
    Path::new(MORNING).join(name).to_str().unwrap().into()
}

fn varint(mut number: u64) -> Vec<u8> {
    let mut out = Vec::new();
    while number > 127 {
        out.push(number as u8 | 128);
        number >>= 7;
    }
    out.push(number as u8);
    out
}

fn packed(field: u64, bytes: &[u8]) -> Vec<u8> {
    [varint(field << 3 | 2), varint(bytes.len() as u64), bytes.into()].concat()
}

fn number(field: u64, number: u64) -> Vec<u8> {
    [varint(field << 3), varint(number)].concat()
}

/// A GTFS Realtime message with these trips, each with some updates; a DIFFERENTIAL one adds them to those before.
pub fn message(differential: bool, trips: &[String], updates: u64) -> Vec<u8> {
    let mut out = packed(1, &number(2, differential.into()));
    let update = |k| packed(2, &[number(1, k), packed(2, &number(1, 60 * k)), packed(4, b"stop")].concat());
    for trip in trips {
        let updates: Vec<u8> = (1..=updates).flat_map(update).collect();
        let record = [packed(1, &packed(1, trip.as_bytes())), updates].concat();
        out.extend(packed(2, &packed(3, &record)));
    }
    out
}
