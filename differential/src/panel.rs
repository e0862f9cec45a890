//! What document 01 gives for each call in a list of calls: the number by its questions in order, and
//! for accepted calls what the original makes of them. Questions 1 and 2 speak of buffers and have no
//! place here.
use crate::form::Form;
use crate::host::{Original, Report};
use crate::papers::{AlertSheet, VehicleSheet};
use crate::questions::{self, yes, LONGEST_CARD};
use std::panic::{catch_unwind, AssertUnwindSafe};

/// A call with its arguments, apart from the overlay and the buffers.
#[derive(Clone, Debug, PartialEq)]
pub enum Call {
    Fresh,
    Message { feed: Vec<u8>, message: Vec<u8> },
    AlertSheet { feed: Vec<u8>, sheet: Vec<u8> },
    VehicleSheet { feed: Vec<u8>, sheet: Vec<u8>, clock: i64 },
    Card { card: Vec<u8> },
    Report { feed: Vec<u8> },
}

#[derive(Clone, Debug, PartialEq)]
pub enum Answer {
    Refused(u8),
    /// The overlay is the outcome.
    Written,
    Card(Vec<u8>),
    Report(Report),
}

impl Answer {
    pub fn number(&self) -> u8 {
        match self {
            Answer::Refused(number) => *number,
            _ => 0,
        }
    }
}

#[derive(Clone, Default)]
pub struct Panel {
    pub original: Original,
}

impl Panel {
    /// None where the original panics (a window's edge inside a character) and so gives no answer.
    pub fn run(&mut self, call: &Call) -> Option<Answer> {
        let answer = catch_unwind(AssertUnwindSafe(|| self.answer(call))).ok()?;
        Some(answer.unwrap_or_else(Answer::Refused))
    }

    fn answer(&mut self, call: &Call) -> Result<Answer, u8> {
        match call {
            Call::Fresh => self.original = Original::default(),
            Call::Message { feed, message } => {
                questions::message(feed, message)?;
                self.keep(feed, call)?;
            }
            Call::AlertSheet { feed, sheet } => {
                questions::alert_sheet(feed, sheet)?;
                self.keep(feed, call)?;
            }
            Call::VehicleSheet { feed, sheet, clock } => {
                questions::vehicle_sheet(feed, sheet, *clock)?;
                self.keep(feed, call)?;
            }
            Call::Card { card } => {
                let finished = self.original.card(&questions::card(card)?).written();
                yes(finished.len() <= LONGEST_CARD, 8)?;
                return Ok(Answer::Card(finished));
            }
            Call::Report { feed } => {
                questions::report(feed)?;
                return Ok(Answer::Report(self.original.report(text(feed))));
            }
        }
        Ok(Answer::Written)
    }

    /// Keeps what a writing call leaves where it is within question 7.
    fn keep(&mut self, feed: &[u8], call: &Call) -> Result<(), u8> {
        let mut after = self.left(call);
        let state = after.feed(text(feed));
        let updates = state.trips.values().all(|trip| trip.stop_updates.len() <= 128);
        yes(updates && state.trips.len() <= 2_048 && state.vehicles.len() <= 1_024, 7)?;
        yes(after.0.feeds.len() <= 4, 7)?;
        self.original = after;
        Ok(())
    }

    /// What a call within questions 3 to 6 leaves, whatever its counts are.
    pub fn left(&self, call: &Call) -> Original {
        let mut after = self.original.clone();
        match call {
            Call::Message { feed, message } => {
                let taken = after.message(text(feed), message);
                assert!(taken, "prost refuses a message that document 01 takes");
            }
            Call::AlertSheet { feed, sheet } => {
                after.alert_sheet(text(feed), &AlertSheet::of(sheet).expect("a sheet"));
            }
            Call::VehicleSheet { feed, sheet, clock } => {
                after.vehicle_sheet(text(feed), &VehicleSheet::of(sheet).expect("a sheet"), *clock);
            }
            Call::Fresh => after = Original::default(),
            Call::Card { .. } | Call::Report { .. } => {}
        }
        after
    }
}

fn text(feed: &[u8]) -> &str {
    std::str::from_utf8(feed).expect("a judged feed id")
}
