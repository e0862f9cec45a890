//! The original Rust as the judge, and beside it the plain second reading of document 01 that judges
//! what the original has no answer for.
// `std` below is ordered_std, so the original's maps are ordered by key.
extern crate ordered_std as std;

#[allow(dead_code, unused_imports, deprecated)]
mod original {
    include!(concat!(env!("OUT_DIR"), "/original.rs"));
}
pub use original::{gtfs, routing, rt};

pub mod after;
pub mod bounds;
pub mod feed_alerts;
pub mod form;
pub mod gens;
pub mod guarded;
pub mod host;
pub mod largest;
pub mod layout;
#[cfg(feature = "port")]
pub mod lent;
pub mod literal;
pub mod messages;
pub mod panel;
pub mod papers;
#[cfg(feature = "port")]
pub mod port;
pub mod questions;
pub mod random;
pub mod samples;
#[cfg(feature = "port")]
pub mod states;
pub mod tables;
pub mod tree;
pub mod turns;
pub mod wire;
