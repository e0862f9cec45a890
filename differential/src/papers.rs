//! Cards and sheets as values, field by field in the order of document 01's "Cards and sheets".
//! Numbers are as wide as the form has them: their ranges are question 6's.
use crate::form::{record, Float, Form, One, Reader, Small, Text};

/// SCHEDULED, ON_TIME, DISRUPTED, DELAYED, CANCELLED: their places here are their numbers.
pub const STATUSES: [&str; 5] = ["SCHEDULED", "ON_TIME", "DISRUPTED", "DELAYED", "CANCELLED"];

record!(Card {
    first: One,
    departure: i64,
    arrival: i64,
    duration: i64,
    status: Small<4>,
    headers: Vec<Text>,
    legs: Vec<Leg>,
});

#[derive(Clone, Debug, PartialEq)]
pub enum Leg {
    Walk(Text),
    Transit(Transit),
}

impl Form for Leg {
    fn write(&self, out: &mut Vec<u8>) {
        match self {
            Leg::Walk(payload) => {
                out.push(0);
                payload.write(out);
            }
            Leg::Transit(leg) => {
                out.push(1);
                leg.write(out);
            }
        }
    }

    fn read(from: &mut Reader) -> Option<Self> {
        if bool::read(from)? {
            Transit::read(from).map(Leg::Transit)
        } else {
            Text::read(from).map(Leg::Walk)
        }
    }
}

record!(Transit {
    mode: Text,
    short_name: Text,
    route: Text,
    trip: Text,
    direction: Option<u64>,
    from: Text,
    to: Text,
    from_sequence: u64,
    to_sequence: u64,
    scheduled_departure: i64,
    scheduled_arrival: i64,
    realtime_departure: Option<i64>,
    realtime_arrival: Option<i64>,
    departure_delay: Option<i64>,
    arrival_delay: Option<i64>,
    cancelled: bool,
    latitude: Option<Float>,
    longitude: Option<Float>,
    updated: Option<i64>,
    middles: Vec<Middle>,
    payload: Text,
});

record!(
    /// A stop between a leg's endpoints.
    Middle {
        stop: Text,
        scheduled_arrival: i64,
        scheduled_departure: i64,
        realtime_arrival: Option<i64>,
        realtime_departure: Option<i64>,
    }
);

record!(AlertSheet { first: One, alerts: Vec<Alert> });

record!(Alert {
    header: Option<Text>,
    description: Option<Text>,
    cause: Option<Text>,
    trips: Vec<Text>,
    routes: Vec<Text>,
    stops: Vec<Text>,
});

record!(VehicleSheet { first: One, vehicles: Vec<Vehicle> });

record!(Vehicle { key: Text, trip: Option<Text>, latitude: Float, longitude: Float, updated: i64 });

impl VehicleSheet {
    /// The order of its keys is part of a vehicle sheet's form.
    pub fn ascending(&self) -> bool {
        self.vehicles.windows(2).all(|pair| pair[0].key < pair[1].key)
    }
}
