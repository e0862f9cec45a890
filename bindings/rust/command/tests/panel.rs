//! The panel in a terminal, by tmux: what it draws as files come, what the buttons do, and what a refusal leaves.
mod common;

use common::{morning, Scratch, CLOCK};
use std::process::Command;
use std::thread::sleep;
use std::time::{Duration, Instant};
use std::{env, fs};

struct Ride {
    at: Scratch,
    socket: String,
}

impl Ride {
    fn start(name: &str) -> Ride {
        Ride::with(name, &[], |at| vec!["panel".into(), at.path("in"), "--clock".into(), CLOCK.into()])
    }

    /// The command in a terminal: behind `before`, with the words after it.
    fn with(name: &str, before: &[&str], after: impl Fn(&Scratch) -> Vec<String>) -> Ride {
        let at = Scratch::new(name);
        fs::create_dir(at.0.join("in")).unwrap();
        let ride = Ride { socket: format!("mipsuqal-{name}-{}", std::process::id()), at };
        let (state, after) = (ride.at.path("state"), after(&ride.at));
        let mut words = vec!["new-session", "-d", "-x", "80", "-y", "40", "--"];
        words.extend(before);
        words.extend([env!("CARGO_BIN_EXE_mipsuqal"), "--state", &state]);
        words.extend(after.iter().map(String::as_str));
        ride.tmux(&words);
        ride
    }

    fn tmux(&self, words: &[&str]) -> String {
        let mut command = Command::new("tmux");
        command.env("TERM", "xterm").env("LC_ALL", "C.UTF-8").args([
            "-u",
            "-f",
            "/dev/null",
            "-L",
            &self.socket,
        ]);
        let said = command.args(words).output().expect("tmux is a package of Debian");
        assert!(said.status.success(), "{words:?}: {}", String::from_utf8_lossy(&said.stderr));
        String::from_utf8(said.stdout).unwrap()
    }

    fn screen(&self) -> String {
        self.tmux(&["capture-pane", "-p"])
    }

    /// Waits until the screen has this, and gives it.
    fn sees(&self, text: &str) -> String {
        let start = Instant::now();
        loop {
            let screen = self.screen();
            if screen.contains(text) {
                return screen;
            }
            assert!(start.elapsed() < Duration::from_secs(20), "no '{text}' on\n{screen}");
            sleep(Duration::from_millis(50));
        }
    }

    /// A file comes, as from a program that renames it when it is whole.
    fn comes(&self, from: &str, name: &str) {
        let part = self.at.0.join("in").join(format!("{name}.part"));
        fs::copy(morning(from), &part).unwrap();
        fs::rename(&part, part.with_extension("")).unwrap();
    }

    fn keys(&self, keys: &[&str]) {
        self.tmux(&[&["send-keys"], keys].concat());
    }
}

impl Drop for Ride {
    fn drop(&mut self) {
        // Of a server that has ended with its last session this says so.
        let _ = Command::new("tmux").args(["-L", &self.socket, "kill-server"]).output();
    }
}

#[test]
fn a_card_in_a_terminal_has_its_status_in_large() {
    let stays = ["sh", "-c", "\"$@\"; sleep 30", "sh"];
    let ride = Ride::with("large", &stays, |_| vec!["card".into(), morning("journey.card")]);
    ride.sees("   ####  #### #   # ##### ####  #   # #     ##### ####\n");
    ride.sees("\n  07:02:00 - 08:26:00, 84 min\n");
}

#[test]
fn a_ride() {
    let ride = Ride::start("ride");
    ride.sees("no card yet");
    ride.comes("journey.card", "journey.card");
    ride.sees("[ SCHEDULED ]   07:02 - 08:26   84 min");
    ride.comes("north-1.pb", "north-1.pb");
    ride.comes("city-1.pb", "city-1.pb");
    ride.sees("[ ON TIME ]   07:10 - 08:20");
    ride.comes("city.alerts", "city.alerts");
    ride.sees("[ DISRUPTED ]");
    ride.comes("north.vehicles", "north.vehicles");
    ride.comes("north-2.pb", "north-2.pb");
    let card = ride.sees("> RAIL H    LUZ    07:14 +4:00");
    assert!(card.contains("  [ DELAYED ]   07:14 - 08:20   66 min") && !card.contains("OLD"), "{card}");

    ride.keys(&["t"]);
    ride.sees("> RAIL B");
    ride.keys(&["m"]);
    ride.sees("by city:CIT 08:06:00");
    ride.keys(&["t"]);
    ride.sees("the vehicle is at 49.16690, 2.42170");
    ride.keys(&["M", "t", "t"]);
    let records = ride.sees("raw records behind north:H-1207");
    assert!(records.contains("1 stop LUZ, departure late 240, departure at 1794809640"), "{records}");
    assert!(records.contains("vehicle unit 7") && !records.contains("feed city"), "{records}");
    ride.keys(&["m"]);
    ride.sees("> RAIL H");
}

#[test]
fn notices_straight_from_a_message() {
    let ride = Ride::start("notices");
    ride.comes("journey.card", "journey.card");
    ride.sees("[ SCHEDULED ]");
    ride.comes("city.alerts.pb", "city.alerts.pb");
    ride.sees("[ DISRUPTED ]");
    ride.comes("north-3.pb", "city-2.alerts.pb");
    ride.sees("OLD: city-2.alerts.pb refused by question 4");
    ride.comes("city.alerts", "city-3.alerts");
    assert!(!ride.sees("│   [ DISRUPTED ]").contains("OLD"), "a sheet is news of alerts as a message is");
}

#[test]
fn a_refusal_makes_the_card_old() {
    let ride = Ride::start("old");
    ride.comes("journey.card", "journey.card");
    ride.comes("north-1.pb", "north-1.pb");
    ride.sees("  [ ON TIME ]");
    ride.comes("north-3.pb", "north-2.pb");
    let old = ride.sees("OLD: north-2.pb refused by question 4");
    assert!(old.contains("OLD [ ON TIME ]   07:10 - 08:26"), "{old}");
    ride.comes("city.alerts", "north.alerts");
    sleep(Duration::from_secs(1));
    assert!(ride.screen().contains("OLD: north-2.pb"), "a sheet says nothing of the trips");
    ride.comes("north-2.pb", "north-3.pb");
    let fresh = ride.sees("  [ DELAYED ]");
    assert!(!fresh.contains("OLD"), "{fresh}");
    ride.comes("north-1.pb", "journey.card");
    let old = ride.sees("OLD: card refused by question 4");
    assert!(old.contains("OLD [ DELAYED ]   07:14"), "{old}");
    ride.comes("journey.card", "journey.card");
    assert!(!ride.sees("│   [ DELAYED ]").contains("OLD"));
    ride.keys(&["q"]);
    let start = Instant::now();
    while Command::new("tmux").args(["-L", &ride.socket, "has-session"]).output().unwrap().status.success() {
        assert!(start.elapsed() < Duration::from_secs(20), "it does not quit");
        sleep(Duration::from_millis(50));
    }
}
