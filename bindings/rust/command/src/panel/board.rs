//! What the panel knows: the state, the journey, the last finished card, and why that may be old.
use super::inbox::{Arrival, Kind};
use crate::fault::Fault;
use crate::input;
use crate::store::Store;
use mipsuqal::{AlertSheet, Card, Form, Panel, Refusal, State, Transit, VehicleSheet};
use std::collections::BTreeMap;
use std::path::PathBuf;

pub struct Board {
    panel: Panel<Store>,
    place: PathBuf,
    journey: Option<Vec<u8>>,
    /// The last card that a call finished.
    pub card: Option<Card>,
    /// The records that it follows from.
    pub state: State,
    /// Why the last card call was refused.
    refused: Option<String>,
    /// By feed and kind, why the last file of it was not taken.
    untaken: BTreeMap<(String, Kind), String>,
}

impl Board {
    pub fn over(panel: Panel<Store>, place: PathBuf) -> Board {
        let state = panel.state().unwrap_or_default();
        Board { panel, place, journey: None, card: None, state, refused: None, untaken: BTreeMap::new() }
    }

    /// Takes what has come, and finishes the card anew.
    pub fn take(&mut self, arrivals: &[Arrival], clock: i64) -> Result<(), Fault> {
        for arrival in arrivals {
            let key = (arrival.feed.clone(), arrival.kind.news());
            match self.take_one(arrival, clock)? {
                Ok(()) => self.untaken.remove(&key),
                Err(why) => self.untaken.insert(key, why),
            };
        }
        if !arrivals.is_empty() {
            self.state = self.panel.state().map_err(|error| Fault::state(&self.place, error))?;
            self.finish();
        }
        Ok(())
    }

    /// One file: taken, or why not. A state that cannot be kept ends the panel.
    fn take_one(&mut self, arrival: &Arrival, clock: i64) -> Result<Result<(), String>, Fault> {
        let name = arrival.path.file_name().unwrap_or_default().to_string_lossy();
        let taken = match self.call(arrival, clock) {
            Ok(answer) => answer.map_err(|refusal| format!("{name} {refusal}")),
            Err(fault) => Err(fault.to_string()),
        };
        self.panel.overlays_mut().commit().map_err(|error| Fault::state(&self.place, error))?;
        Ok(taken)
    }

    fn call(&mut self, arrival: &Arrival, clock: i64) -> Result<Result<(), Refusal>, Fault> {
        let Arrival { kind, feed, path, .. } = arrival;
        Ok(match kind {
            Kind::Message => self.panel.message(feed, &input::file(path)?),
            Kind::AlertMessage => self.panel.alert_message(feed, &input::file(path)?),
            Kind::Alerts => self.panel.alert_sheet_bytes(feed, &input::form::<AlertSheet>(path)?),
            Kind::Vehicles => {
                self.panel.vehicle_sheet_bytes(feed, &input::form::<VehicleSheet>(path)?, clock)
            }
            Kind::Journey => {
                self.journey = Some(input::form::<Card>(path)?);
                Ok(())
            }
        })
    }

    /// A refused card call leaves the last card standing, which is then old.
    fn finish(&mut self) {
        let Some(journey) = &self.journey else { return };
        match self.panel.card_bytes(journey) {
            Ok(bytes) => {
                self.card = Some(Card::decode(&bytes).expect("a finished card has its form"));
                self.refused = None;
            }
            Err(refusal) => self.refused = Some(format!("card {refusal}")),
        }
    }

    /// What has come and is not in the card, in words: where there is such a thing the card is old.
    pub fn faults(&self) -> impl Iterator<Item = &String> {
        self.refused.iter().chain(self.untaken.values())
    }

    /// The card's trains.
    pub fn trains(&self) -> Vec<&Transit> {
        self.card.iter().flat_map(Card::transit_legs).collect()
    }
}
