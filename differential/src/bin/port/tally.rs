//! What lists of calls came to: numbers by call, statuses of finished cards, and what was left.
use differential::form::Form;
use differential::panel::{Answer, Call, Panel};
use differential::papers::{Card, STATUSES};
use differential::tree::{tree, Type, Value, DEEPEST_GROUP};
use std::collections::BTreeMap;

/// So many calls have to give every number and every status.
const MANY: usize = 5_000;

#[derive(Default)]
pub struct Tally {
    pub calls: usize,
    numbers: BTreeMap<&'static str, BTreeMap<u32, usize>>,
    statuses: BTreeMap<u8, usize>,
    /// Cards at which the original panics.
    panics: usize,
    /// Calls within all questions but that of room.
    pub no_room: usize,
    pub gained: usize,
    /// Accepted messages that are DIFFERENTIAL.
    differential: usize,
    records: usize,
    updates: usize,
    vehicles: usize,
    alerts: usize,
}

impl Tally {
    pub fn call(&mut self, call: &Call, number: u32, answer: Option<&Answer>) {
        self.calls += 1;
        *self.numbers.entry(name(call)).or_default().entry(number).or_insert(0) += 1;
        if let (Call::Message { message, .. }, 0) = (call, number) {
            self.differential += usize::from(is_differential(message));
        }
        match answer {
            None => self.panics += 1,
            Some(Answer::Card(card)) => {
                let status = Card::of(card).expect("a finished card").status.0;
                *self.statuses.entry(status).or_insert(0) += 1;
            }
            Some(_) => {}
        }
    }

    /// What is left at the end of a list.
    pub fn left(&mut self, panel: &Panel) {
        for feed in panel.original.0.feeds.values() {
            self.records += feed.trips.len();
            self.updates += feed.trips.values().map(|trip| trip.stop_updates.len()).sum::<usize>();
            self.vehicles += feed.vehicles.len();
            self.alerts += feed.alerts.len();
        }
    }

    /// Prints it; how many numbers and statuses no call of many gave.
    pub fn print(&self, lists: usize, overlays: &str) -> usize {
        let Tally {
            calls, no_room, gained, panics, differential, records, updates, vehicles, alerts, ..
        } = self;
        println!(
            "port: {lists} lists of {calls} calls, {overlays}, each again with fields added to {gained} messages; \
             left at their ends {records} records with {updates} updates, {vehicles} vehicles, {alerts} alerts"
        );
        for (name, numbers) in &self.numbers {
            let counts: Vec<_> = numbers.iter().map(|(number, count)| format!("{number}: {count}")).collect();
            println!("  numbers of {name} calls  {}", counts.join(", "));
        }
        println!("  {differential} of the accepted messages are DIFFERENTIAL");
        let status = |(status, count): (&u8, &usize)| format!("{} {count}", STATUSES[usize::from(*status)]);
        let statuses: Vec<_> = self.statuses.iter().map(status).collect();
        println!("  finished cards  {}; at {panics} more the original panics", statuses.join(", "));
        let numbers = (0..9).filter(|number| !self.numbers.values().any(|by| by.contains_key(number)));
        let missing = numbers.count() + STATUSES.len() - self.statuses.len();
        println!(
            "  {no_room} of the sevens for want of room; {missing} numbers and statuses that no call gave"
        );
        if self.calls < MANY {
            0
        } else {
            missing
        }
    }
}

/// The last number of its headers' incrementality, its low 32 bits.
fn is_differential(message: &[u8]) -> bool {
    let fields = tree(Type::FeedMessage, message, DEEPEST_GROUP).expect("an accepted message");
    let in_headers = fields.iter().filter(|field| field.number == 1).flat_map(|field| match &field.value {
        Value::Message(fields) => fields.as_slice(),
        _ => &[],
    });
    let last = in_headers.filter(|field| field.number == 2).last();
    last.is_some_and(|field| matches!(field.value, Value::Number(number) if number as u32 == 1))
}

pub fn name(call: &Call) -> &'static str {
    match call {
        Call::Fresh => "fresh",
        Call::Message { .. } => "message",
        Call::AlertSheet { .. } => "alert sheet",
        Call::VehicleSheet { .. } => "vehicle sheet",
        Call::Card { .. } => "card",
        Call::Report { .. } => "report",
    }
}
