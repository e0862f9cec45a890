//! A journey card, field by field in the order of its form.
use crate::form::{record, Form, FormError, Reader};
use crate::tree::{Tree, TreeError};

record!(
    /// A journey card: as it arrives from the planner, or finished by [`crate::Panel::card`].
    /// Times are seconds since 1970 UTC.
    Card first 1 {
        departure: i64,
        arrival: i64,
        /// Seconds.
        duration: i64,
        status: Status,
        /// Notices that apply to a leg, ascending on a finished card.
        headers: Vec<String>,
        legs: Vec<Leg>,
    }
);

/// What a card says of its journey: on a finished card the first of CANCELLED, DELAYED, DISRUPTED, ON_TIME that
/// holds, else SCHEDULED.
#[derive(Clone, Copy, Debug, Default, PartialEq, Eq)]
pub enum Status {
    #[default]
    Scheduled,
    OnTime,
    Disrupted,
    Delayed,
    Cancelled,
}

impl Status {
    /// By number.
    pub const ALL: [Status; 5] =
        [Status::Scheduled, Status::OnTime, Status::Disrupted, Status::Delayed, Status::Cancelled];

    /// As GTFS people write it.
    pub fn name(self) -> &'static str {
        ["SCHEDULED", "ON_TIME", "DISRUPTED", "DELAYED", "CANCELLED"][self as usize]
    }
}

impl Form for Status {
    fn write(&self, out: &mut Vec<u8>) {
        out.push(*self as u8);
    }

    fn read(from: &mut Reader) -> Result<Self, FormError> {
        let number = from.byte()?;
        Status::ALL.get(usize::from(number)).copied().ok_or_else(|| from.error("a status is above 4"))
    }

    fn tree(&self) -> Tree {
        Tree::Text(self.name().into())
    }

    fn of_tree(tree: &Tree) -> Result<Self, TreeError> {
        let named = |status: &Status| *tree == status.tree();
        let names = Status::ALL.map(Status::name).join(", ");
        Status::ALL.into_iter().find(named).ok_or_else(|| TreeError::wanted(&format!("one of {names}")))
    }
}

/// A leg of the journey.
#[derive(Clone, Debug, PartialEq)]
pub enum Leg {
    Walk(Walk),
    Transit(Box<Transit>),
}

record!(
    /// A walk: whatever the planner put into its payload.
    Walk { payload: Vec<u8> }
);

record!(
    /// A leg by train, bus or tram.
    Transit {
        mode: String,
        short_name: String,
        route: String,
        trip: String,
        direction: Option<u64>,
        from: String,
        to: String,
        from_sequence: u64,
        to_sequence: u64,
        scheduled_departure: i64,
        scheduled_arrival: i64,
        realtime_departure: Option<i64>,
        realtime_arrival: Option<i64>,
        /// Seconds late; below zero early.
        departure_delay: Option<i64>,
        arrival_delay: Option<i64>,
        cancelled: bool,
        /// Where the vehicle was, and when.
        latitude: Option<f64>,
        longitude: Option<f64>,
        updated: Option<i64>,
        middle_stops: Vec<MiddleStop>,
        payload: Vec<u8>,
    }
);

record!(
    /// A stop between a leg's endpoints.
    MiddleStop {
        stop: String,
        scheduled_arrival: i64,
        scheduled_departure: i64,
        realtime_arrival: Option<i64>,
        realtime_departure: Option<i64>,
    }
);

impl Form for Leg {
    fn write(&self, out: &mut Vec<u8>) {
        matches!(self, Leg::Transit(_)).write(out);
        match self {
            Leg::Walk(walk) => walk.write(out),
            Leg::Transit(transit) => transit.write(out),
        }
    }

    fn read(from: &mut Reader) -> Result<Self, FormError> {
        if bool::read(from)? {
            Ok(Leg::Transit(Box::new(Transit::read(from)?)))
        } else {
            Walk::read(from).map(Leg::Walk)
        }
    }

    fn tree(&self) -> Tree {
        Tree::Record(vec![match self {
            Leg::Walk(walk) => ("walk".into(), walk.tree()),
            Leg::Transit(transit) => ("transit".into(), transit.tree()),
        }])
    }

    fn of_tree(tree: &Tree) -> Result<Self, TreeError> {
        let fields = tree.fields(&["walk", "transit"])?;
        match (fields.get::<Option<Walk>>("walk")?, fields.get::<Option<Transit>>("transit")?) {
            (Some(walk), None) => Ok(Leg::Walk(walk)),
            (None, Some(transit)) => Ok(Leg::Transit(Box::new(transit))),
            _ => Err(TreeError::wanted("either 'walk' or 'transit'")),
        }
    }
}

impl Card {
    /// The legs that are no walks.
    pub fn transit_legs(&self) -> impl Iterator<Item = &Transit> {
        self.legs.iter().filter_map(|leg| match leg {
            Leg::Walk(_) => None,
            Leg::Transit(transit) => Some(&**transit),
        })
    }
}
