//! Why a call was refused: the number of the first question that was answered by no.
use std::fmt;

/// The question that a call was refused by.
#[derive(Clone, Copy, Debug, PartialEq, Eq)]
#[repr(u32)]
pub enum Refusal {
    WrongLength = 1,
    NoOverlay = 2,
    TooLong = 3,
    BrokenForm = 4,
    TextLimit = 5,
    OutOfRange = 6,
    TooMany = 7,
    CardTooLong = 8,
}

use Refusal::*;

impl Refusal {
    /// All of them, in the order of their numbers.
    pub const ALL: [Refusal; 8] =
        [WrongLength, NoOverlay, TooLong, BrokenForm, TextLimit, OutOfRange, TooMany, CardTooLong];

    /// ```
    /// use mipsuqal::Refusal;
    /// assert_eq!(Refusal::of(4), Some(Refusal::BrokenForm));
    /// assert_eq!(Refusal::of(0), None); // accepted
    /// ```
    pub fn of(number: u32) -> Option<Refusal> {
        Refusal::ALL.into_iter().find(|refusal| refusal.number() == number)
    }

    pub fn number(self) -> u32 {
        self as u32
    }

    /// What the number says.
    pub fn meaning(self) -> &'static str {
        match self {
            WrongLength => "a buffer has not its published length",
            NoOverlay => "the old buffer is no overlay",
            TooLong => "it is too long: a message or sheet may have 1,048,576 bytes, a card 65,536",
            BrokenForm => "it has not its form: damaged, cut off, or of another kind",
            TextLimit => "an id or a text is beyond its limits, or the feed id is none",
            OutOfRange => "a time, the clock or a number is out of its range",
            TooMany => {
                "there would be too many of something: feeds, trips, updates, vehicles, alerts, ids, legs"
            }
            CardTooLong => {
                "the finished card or sheet is too long: a card may have 65,536 bytes, a sheet 1,048,576"
            }
        }
    }

    /// What a panel does about it.
    pub fn advice(self) -> &'static str {
        match self {
            WrongLength => "a fault of the program: lend buffers of the lengths in mipsuqal.h",
            NoOverlay => "start from a fresh overlay, and have every supplier send its full dataset",
            TooLong => "show the last card as old; the supplier must send less at once",
            BrokenForm => "show what was accepted before as old, and wait for the supplier's next message",
            TextLimit => "check the feed id (1 to 16 bytes of 33 to 126, no ':'); else tell the supplier",
            OutOfRange => "check the clock; else tell the supplier: a time is not in seconds since 1970",
            TooMany => "give each supplier one feed id, at most four; else ask it for a smaller region",
            CardTooLong => {
                "have the planner send shorter payloads or fewer legs; of a sheet, the supplier fewer alerts"
            }
        }
    }
}

impl fmt::Display for Refusal {
    fn fmt(&self, f: &mut fmt::Formatter) -> fmt::Result {
        write!(f, "refused by question {}: {}", self.number(), self.meaning())
    }
}

impl std::error::Error for Refusal {}
