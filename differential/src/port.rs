//! The port's compiled calls. They ask nothing of their caller but that a slice is what it says it is: two arguments, where it begins
//! and how long it is.
use crate::layout::{StopUpdate, Trip, UpdateEntry};
use crate::lent::end;

mod raw {
    #[repr(C)]
    pub struct Header {
        pub differential: bool,
        pub timed: bool,
        pub timestamp: u64,
    }

    #[repr(C)]
    pub struct Trip {
        pub cancelled: bool,
        pub directed: bool,
        pub direction: u32,
        pub delayed: bool,
        pub delay: i32,
    }

    #[repr(C)]
    pub struct Event {
        pub delayed: bool,
        pub delay: i32,
        pub timed: bool,
        pub time: i64,
    }

    #[repr(C)]
    pub struct Stop {
        pub sequence: u32,
        pub skipped: bool,
        pub arrival: Event,
        pub departure: Event,
    }

    #[repr(C)]
    pub struct Label {
        pub from: usize,
        pub to: usize,
    }

    extern "C" {
        pub fn probes_field_end(bytes: *const u8, length: usize, at: usize) -> usize;
        pub fn trips_judge(message: *const u8, length: usize) -> u32;
        pub fn trips_header(message: *const u8, length: usize) -> Header;
        pub fn trips_index(
            keys: *mut u8,
            keys_length: usize,
            marks: *mut u32,
            marks_length: usize,
            order: *mut u32,
            order_length: usize,
            feed: *const u8,
            feed_length: usize,
            message: *const u8,
            length: usize,
            old: *const u8,
            old_length: usize,
        ) -> usize;
        pub fn trips_trip(entity: *const u8, length: usize) -> Trip;
        pub fn trips_texts(
            entity: *const u8,
            length: usize,
            time: *const u8,
            time_length: usize,
            date: *const u8,
            date_length: usize,
            route: *const u8,
            route_length: usize,
        ) -> bool;
        pub fn trips_updates(
            updates: *mut u32,
            updates_length: usize,
            entity: *const u8,
            length: usize,
        ) -> usize;
        pub fn trips_stop(update: *const u8, length: usize) -> Stop;
        pub fn trips_stop_text(update: *const u8, length: usize, stop: *const u8, stop_length: usize)
            -> bool;
        pub fn alerts_applies(
            text: *mut u8,
            text_length: usize,
            alert: *const u8,
            alert_length: usize,
            trip: *const u8,
            trip_length: usize,
            route: *const u8,
            route_length: usize,
            short: *const u8,
            short_length: usize,
            from: *const u8,
            from_length: usize,
            to: *const u8,
            to_length: usize,
            mode: *const u8,
            mode_length: usize,
        ) -> u32;
        pub fn alerts_label(alert: *const u8, length: usize) -> Label;
        pub fn alerts_line(out: *mut u8, out_length: usize, code: *const u8, code_length: usize) -> usize;
        pub fn alerts_text_fits(
            out: *mut u8,
            out_length: usize,
            header: *const u8,
            header_length: usize,
            description: *const u8,
            description_length: usize,
            short: *const u8,
            short_length: usize,
        ) -> bool;
        pub fn mipsuqal_feed_alerts(
            feed: *const u8,
            feed_length: usize,
            message: *const u8,
            message_length: usize,
            out: *mut u8,
            out_length: usize,
        ) -> u32;
    }
}

pub fn field_end(bytes: &[u8], at: usize) -> usize {
    unsafe { raw::probes_field_end(bytes.as_ptr(), bytes.len(), at) }
}

/// The number of the first no of questions 4 to 6, else 0.
pub fn judge(message: &[u8]) -> u32 {
    unsafe { raw::trips_judge(message.as_ptr(), message.len()) }
}

/// Whether a message is DIFFERENTIAL, and its header timestamp.
pub fn header(message: &[u8]) -> (bool, Option<i64>) {
    let header = unsafe { raw::trips_header(message.as_ptr(), message.len()) };
    (header.differential, header.timed.then_some(header.timestamp.cast_signed()))
}

/// A place in the old trips is so much above one in the message.
const OLD: usize = 1_048_577;

/// Where a record comes from.
pub enum Place {
    Message(std::ops::Range<usize>),
    Old(std::ops::Range<usize>),
}

/// The working slices of the index of trips, and one for the updates of a record.
pub struct Index {
    keys: Vec<u8>,
    marks: Vec<u32>,
    order: Vec<u32>,
    updates: Vec<u32>,
}

/// How long those of the index are, and that of the updates.
pub const LENGTHS: [usize; 3] = [280_713, 6_147, 2_049];
const UPDATES: usize = 387;

impl Default for Index {
    fn default() -> Self {
        Index::sized(LENGTHS)
    }
}

impl Index {
    /// They may hold anything before.
    pub fn sized([keys, marks, order]: [usize; 3]) -> Self {
        let words = |length| vec![0xa5a5_a5a5; length];
        Index { keys: vec![0xa5; keys], marks: words(marks), order: words(order), updates: words(UPDATES) }
    }

    /// The number of the first no of questions 1 to 7, or how many trips are left of the feed.
    pub fn leave(&mut self, feed: &[u8], message: &[u8], old: &[u8]) -> Result<usize, usize> {
        let answer = unsafe {
            raw::trips_index(
                self.keys.as_mut_ptr(),
                self.keys.len(),
                self.marks.as_mut_ptr(),
                self.marks.len(),
                self.order.as_mut_ptr(),
                self.order.len(),
                feed.as_ptr(),
                feed.len(),
                message.as_ptr(),
                message.len(),
                old.as_ptr(),
                old.len(),
            )
        };
        answer.checked_sub(16).ok_or(answer)
    }

    /// The key and the place of the trip at a rank.
    pub fn at(&self, rank: usize) -> Option<(&[u8], Place)> {
        let slot = *self.order.get(rank)? as usize;
        let [length, from, till] = self.marks.get(3 * slot..)?.first_chunk()?.map(|word| word as usize);
        let place = match from.checked_sub(OLD) {
            None => Place::Message(from..till),
            Some(from) => Place::Old(from..till.checked_sub(OLD)?),
        };
        Some((self.keys.get(137 * slot..)?.get(..length)?, place))
    }

    /// Whether an entity's record is a given one.
    pub fn is_trip(&mut self, entity: &[u8], trip: &Trip) -> bool {
        let Trip { time, date, route, .. } = trip;
        let found = unsafe { raw::trips_trip(entity.as_ptr(), entity.len()) };
        let texts = unsafe {
            raw::trips_texts(
                entity.as_ptr(),
                entity.len(),
                time.0.as_ptr(),
                time.0.len(),
                date.0.as_ptr(),
                date.0.len(),
                route.0.as_ptr(),
                route.0.len(),
            )
        };
        let count = unsafe {
            let updates = &mut self.updates;
            raw::trips_updates(updates.as_mut_ptr(), updates.len(), entity.as_ptr(), entity.len())
        };
        texts
            && found.cancelled == trip.cancelled
            && found.directed.then_some(found.direction.into()) == trip.direction
            && found.delayed.then_some(found.delay.into()) == trip.delay
            && count == trip.updates.len() + 16
            && self.updates.chunks(3).zip(&trip.updates).all(|(place, entry)| {
                let update = entity.get(place[1] as usize..place[2] as usize);
                u64::from(place[0]) == entry.sequence && update.is_some_and(|update| is_update(update, entry))
            })
    }
}

fn is_update(update: &[u8], UpdateEntry { sequence, update: expected }: &UpdateEntry) -> bool {
    let StopUpdate { stop, .. } = expected;
    let found = unsafe { raw::trips_stop(update.as_ptr(), update.len()) };
    let is_stop =
        unsafe { raw::trips_stop_text(update.as_ptr(), update.len(), stop.0.as_ptr(), stop.0.len()) };
    let delay = |event: &raw::Event| event.delayed.then_some(event.delay.into());
    let time = |event: &raw::Event| event.timed.then_some(event.time);
    is_stop
        && u64::from(found.sequence) == *sequence
        && found.skipped == expected.skipped
        && delay(&found.arrival) == expected.arrival_delay
        && time(&found.arrival) == expected.arrival_time
        && delay(&found.departure) == expected.departure_delay
        && time(&found.departure) == expected.departure_time
}

/// Whether an alert's texts may be about a line; they are folded into `out`.
pub fn text_fits(out: &mut [u8], header: &str, description: &str, short: &str) -> bool {
    unsafe {
        raw::alerts_text_fits(
            out.as_mut_ptr(),
            out.len(),
            header.as_ptr(),
            header.len(),
            description.as_ptr(),
            description.len(),
            short.as_ptr(),
            short.len(),
        )
    }
}

/// The texts of a leg that the alert rules look at.
pub struct Leg<'a> {
    pub trip: &'a str,
    pub route: &'a str,
    pub short: &'a str,
    pub from: &'a str,
    pub to: &'a str,
    pub mode: &'a str,
}

/// Whether the alert that the bytes hold applies to the leg, 1 or 0; 2 where they hold none within its limits, 3 where
/// there is no room for its texts.
pub fn applies(text: &mut [u8], alert: &[u8], leg: &Leg) -> u32 {
    let Leg { trip, route, short, from, to, mode } = leg;
    unsafe {
        raw::alerts_applies(
            text.as_mut_ptr(),
            text.len(),
            alert.as_ptr(),
            alert.len(),
            trip.as_ptr(),
            trip.len(),
            route.as_ptr(),
            route.len(),
            short.as_ptr(),
            short.len(),
            from.as_ptr(),
            from.len(),
            to.as_ptr(),
            to.len(),
            mode.as_ptr(),
            mode.len(),
        )
    }
}

/// The label of the alert that the bytes hold, nothing where they hold none within its limits.
pub fn label(alert: &[u8]) -> &[u8] {
    let label = unsafe { raw::alerts_label(alert.as_ptr(), alert.len()) };
    &alert[label.from..label.to]
}

/// How many bytes of `out` the name of a product code's line takes: 0 where it has none, 4 where there is no room.
pub fn line(out: &mut [u8], code: &[u8]) -> usize {
    unsafe { raw::alerts_line(out.as_mut_ptr(), out.len(), code.as_ptr(), code.len()) }
}

/// A message's alerts as a sheet, and zeros behind it; the number of the first no, or 0.
pub fn feed_alerts(feed: &[u8], message: &[u8], out: &mut [u8]) -> u32 {
    unsafe {
        raw::mipsuqal_feed_alerts(
            feed.as_ptr(),
            feed.len(),
            message.as_ptr(),
            message.len(),
            out.as_mut_ptr(),
            out.len(),
        )
    }
}

/// Where the alert sheet that bytes begin with ends; none where they begin with none.
pub fn sheet_end(bytes: &[u8]) -> Option<usize> {
    const ALERT_SHEET: u32 = 1;
    Some(end(ALERT_SHEET, bytes)).filter(|end| *end > 0)
}
