//! The live journey card for one's own panel: a safe wrapper around the proved library.
//!
//! A [`Panel`] owns two overlays that take turns and the working buffers. Suppliers' messages and sheets go in, and a
//! journey's [`Card`] comes out finished: SCHEDULED, ON_TIME, DISRUPTED, DELAYED or CANCELLED, with times and notices.
//! What a call refuses changes nothing; the [`Refusal`] says why. docs/GUIDE.md of the repository says the rest.
mod calls;
mod card;
mod form;
mod large;
mod overlay;
mod panel;
mod paris;
mod raw;
mod refusal;
mod report;
mod sheets;
mod state;
mod tree;
mod words;

pub use calls::{end, feed_alerts, published_lengths, Kind, CARD, REPORT, SHEET};
pub use card::{Card, Leg, MiddleStop, Status, Transit, Walk};
pub use form::{Form, FormError, Reader};
pub use overlay::{InMemory, Overlay, Overlays};
pub use panel::Panel;
pub use paris::time_of_day;
pub use refusal::Refusal;
pub use report::Report;
pub use sheets::{Alert, AlertSheet, Vehicle, VehicleSheet};
pub use state::{Feed, State, StopTimeUpdate, Trip};
pub use tree::{Tree, TreeError};
