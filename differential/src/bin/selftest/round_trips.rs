//! Cards and sheets written and read back, either way round, on random values and damaged bytes.
use crate::Tally;
use differential::form::Form;
use differential::papers::{AlertSheet, Card, VehicleSheet};
use differential::random::Random;
use differential::{gens, gens::damaged};
use std::fmt::Debug;

const ROUNDS: usize = 2_000;

pub fn run(tally: &mut Tally) {
    kind::<Card>(tally, "card", gens::wild_card);
    kind::<AlertSheet>(tally, "alert sheet", gens::wild_alert_sheet);
    kind::<VehicleSheet>(tally, "vehicle sheet", gens::wild_vehicle_sheet);
}

/// Every value's writing reads as it; whatever bytes read as a value are its writing.
fn kind<T: Form + PartialEq + Debug>(tally: &mut Tally, name: &str, value: fn(&mut Random) -> T) {
    let mut random = Random::new(1);
    let (mut back, mut still_read) = (0, 0);
    let mut faults = 0;
    for _ in 0..ROUNDS {
        let value = value(&mut random);
        let bytes = value.written();
        back += usize::from(T::of(&bytes).as_ref() == Some(&value));
        let bytes = damaged(&mut random, bytes);
        if let Some(value) = T::of(&bytes) {
            still_read += 1;
            faults += usize::from(value.written() != bytes);
        }
    }
    let input = format!("{ROUNDS} random ones, damaged after, {still_read} of them still in form");
    let answer = format!("{back} read back, {faults} read from other bytes than their writing");
    let expected = format!("{ROUNDS} read back, 0 read from other bytes than their writing");
    tally.case(name, &input, &answer, &expected);
}
