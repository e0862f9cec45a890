//! Alert sheets and vehicle sheets, field by field in the order of their forms.
use crate::form::record;

record!(
    /// A supplier's alerts: they replace those of the feed ([`crate::Panel::alert_sheet`]).
    AlertSheet first 1 { alerts: Vec<Alert> }
);

record!(
    /// An alert, and the trips, routes and stops that it informs of.
    Alert {
        header: Option<String>,
        description: Option<String>,
        cause: Option<String>,
        trips: Vec<String>,
        routes: Vec<String>,
        stops: Vec<String>,
    }
);

record!(
    /// Vehicles, by strictly ascending keys ([`crate::Panel::vehicle_sheet`]).
    VehicleSheet first 1 { vehicles: Vec<Vehicle> }
);

record!(
    /// A vehicle's place. `updated` is in seconds since 1970 UTC.
    Vehicle { key: String, trip: Option<String>, latitude: f64, longitude: f64, updated: i64 }
);
