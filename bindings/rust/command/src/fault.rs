//! What can go wrong, in words and as an exit status: a refusal's own number, else one of sysexits.h.
use crate::json;
use mipsuqal::{Refusal, Tree};
use std::path::{Path, PathBuf};
use std::{fmt, io};

pub enum Fault {
    /// What was called, and why it was refused.
    Refused(String, Refusal),
    Usage(String),
    /// A file that cannot be read.
    Unread(PathBuf, io::Error),
    /// A file whose JSON is none, or not of the wanted kind.
    Unfit(PathBuf, String),
    /// The state's files.
    State(PathBuf, String),
    /// What is printed cannot be.
    Unprinted(io::Error),
}

impl Fault {
    pub fn state(place: &Path, why: impl fmt::Display) -> Fault {
        Fault::State(place.into(), why.to_string())
    }

    pub fn status(&self) -> u8 {
        match self {
            Fault::Refused(_, refusal) => refusal.number() as u8,
            Fault::Usage(_) => 64,
            Fault::Unfit(..) => 65,
            Fault::Unread(..) => 66,
            Fault::State(..) | Fault::Unprinted(_) => 74,
        }
    }

    /// To the person, and with `--json` to the program that called.
    pub fn tell(&self, json: bool) {
        eprintln!("mipsuqal: {self}");
        if let (Fault::Refused(_, refusal), true) = (self, json) {
            println!("{}", json::text(&answer(Some(*refusal))));
        }
    }
}

/// A call's answer: its number, what that says, what to do.
pub fn answer(refused: Option<Refusal>) -> Tree {
    let number = refused.map_or(0, Refusal::number);
    let text = |said: &str| Tree::Text(said.into());
    Tree::Record(vec![
        ("refused".into(), Tree::Number(number.into())),
        ("meaning".into(), text(refused.map_or("accepted", Refusal::meaning))),
        ("advice".into(), text(refused.map_or("nothing to do", Refusal::advice))),
    ])
}

impl fmt::Display for Fault {
    fn fmt(&self, f: &mut fmt::Formatter) -> fmt::Result {
        match self {
            Fault::Refused(call, refusal) => write!(f, "{call}: {refusal}\n  {}", refusal.advice()),
            Fault::Usage(why) => write!(f, "{why}\n  'mipsuqal help' says what there is"),
            Fault::Unread(file, error) => write!(f, "cannot read {}: {error}", file.display()),
            Fault::Unfit(file, why) => write!(f, "{}: {why}", file.display()),
            Fault::State(place, why) => write!(f, "state in {}: {why}", place.display()),
            Fault::Unprinted(error) => write!(f, "cannot print: {error}"),
        }
    }
}
