//! Stands for gtfs/pack.rs, which is excluded: only what overlay.rs and journey.rs name. Nothing
//! here is reached, since the epoch is None.
use super::siri_trip_map::SiriTripAliases;

#[derive(Debug, Clone)]
pub enum RouteMode {}

pub struct StopRecord {
    pub id: String,
    pub name: String,
    pub lat: Option<f64>,
    pub lon: Option<f64>,
    pub platform_code: Option<String>,
}

pub struct StaticEpoch {
    pub stops: Vec<StopRecord>,
    pub siri_trip_aliases: SiriTripAliases,
}
