//! The listed messages and fields of document 01 by name, for tests that write them.
use crate::wire::{delimited, varint};

macro_rules! messages {
    ($($name:ident $field:literal),* $(,)?) => {
        $(pub fn $name(fields: &[Vec<u8>]) -> Vec<u8> { delimited($field, fields.concat()) })*
    };
}
macro_rules! numbers {
    ($($name:ident $field:literal),* $(,)?) => {
        $(pub fn $name(value: i64) -> Vec<u8> { varint($field, value.cast_unsigned()) })*
    };
}
macro_rules! texts {
    ($($name:ident $field:literal),* $(,)?) => {
        $(pub fn $name(text: &str) -> Vec<u8> { delimited($field, text) })*
    };
}

messages!(header 1, entity 2, trip_update 3, trip 1, stop_time_update 2, arrival 2, departure 3);
numbers!(
    incrementality 2,
    timestamp 3,
    is_deleted 2,
    trip_delay 5,
    trip_relationship 4,
    direction_id 6,
    stop_sequence 1,
    stop_relationship 5,
    delay 1,
    time 2,
);
texts!(trip_id 1, start_time 2, start_date 3, route_id 5, stop_id 4);

pub const DIFFERENTIAL: i64 = 1;
pub const CANCELED: i64 = 3;
pub const SKIPPED: i64 = 1;

/// Those of document 02's list for alerts, which have names of document 01's list at other numbers.
pub mod alerts {
    pub use super::{entity, is_deleted};
    use crate::wire::delimited;

    messages!(alert 5, informed_entity 5, header_text 10, description_text 11, trip 4, translation 1);
    texts!(text 1, language 2, trip_id 1, route_id 2, stop_id 5);
}
