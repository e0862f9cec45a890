//! The calls, with every length in the types: a wrong one cannot be passed. All that is unsafe about them stands here.
use crate::overlay::Overlay;
use crate::raw;
use crate::refusal::Refusal;

/// How long a finished card's buffer is.
pub const CARD: usize = 65_536;
/// How long a report is.
pub const REPORT: usize = 25;
/// How long the buffer is that a message's alerts are written into as a sheet.
pub const SHEET: usize = 1_048_576;

/// The working buffers. Their contents don't matter before a call; every call leaves zeros.
pub(crate) struct Work {
    keys: [u8; 280_713],
    marks: [u32; 6_147],
    order: [u32; 2_049],
    candidates: [u16; 256],
    met: [u16; 256],
    noted: [u32; 8_208],
    known: [u32; 4_096],
    pub(crate) card: [u8; CARD],
}

/// What a number says of a call.
fn answer(number: u32) -> Result<(), Refusal> {
    match number {
        0 => Ok(()),
        _ => Err(Refusal::of(number).expect("a call answers 0 to 8")),
    }
}

// In each call below every slice is a Rust reference's, so it is valid for its length, and a written one is borrowed
// mutably, so it overlaps no other: that is all that the calls ask.

pub(crate) fn fresh(new: &mut Overlay) -> Result<(), Refusal> {
    let new = new.bytes_mut();
    answer(unsafe { raw::mipsuqal_fresh(new.as_mut_ptr(), new.len()) })
}

pub(crate) fn message(
    old: &Overlay,
    feed: &str,
    message: &[u8],
    new: &mut Overlay,
    work: &mut Work,
) -> Result<(), Refusal> {
    let (old, new) = (old.bytes(), new.bytes_mut());
    answer(unsafe {
        raw::mipsuqal_message(
            old.as_ptr(),
            old.len(),
            feed.as_ptr(),
            feed.len(),
            message.as_ptr(),
            message.len(),
            new.as_mut_ptr(),
            new.len(),
            work.keys.as_mut_ptr(),
            work.keys.len(),
            work.marks.as_mut_ptr(),
            work.marks.len(),
            work.order.as_mut_ptr(),
            work.order.len(),
        )
    })
}

pub(crate) fn alert_sheet(old: &Overlay, feed: &str, sheet: &[u8], new: &mut Overlay) -> Result<(), Refusal> {
    let (old, new) = (old.bytes(), new.bytes_mut());
    answer(unsafe {
        raw::mipsuqal_alert_sheet(
            old.as_ptr(),
            old.len(),
            feed.as_ptr(),
            feed.len(),
            sheet.as_ptr(),
            sheet.len(),
            new.as_mut_ptr(),
            new.len(),
        )
    })
}

pub(crate) fn vehicle_sheet(
    old: &Overlay,
    feed: &str,
    sheet: &[u8],
    clock: i64,
    new: &mut Overlay,
) -> Result<(), Refusal> {
    let (old, new) = (old.bytes(), new.bytes_mut());
    answer(unsafe {
        raw::mipsuqal_vehicle_sheet(
            old.as_ptr(),
            old.len(),
            feed.as_ptr(),
            feed.len(),
            sheet.as_ptr(),
            sheet.len(),
            clock,
            new.as_mut_ptr(),
            new.len(),
        )
    })
}

/// Leaves the finished card, and then zeros, in `work.card`.
pub(crate) fn card(old: &Overlay, card: &[u8], work: &mut Work) -> Result<(), Refusal> {
    let old = old.bytes();
    answer(unsafe {
        raw::mipsuqal_card(
            old.as_ptr(),
            old.len(),
            card.as_ptr(),
            card.len(),
            work.card.as_mut_ptr(),
            work.card.len(),
            work.candidates.as_mut_ptr(),
            work.candidates.len(),
            work.met.as_mut_ptr(),
            work.met.len(),
            work.noted.as_mut_ptr(),
            work.noted.len(),
            work.known.as_mut_ptr(),
            work.known.len(),
        )
    })
}

pub(crate) fn report(old: &Overlay, feed: &str, out: &mut [u8; REPORT]) -> Result<(), Refusal> {
    let old = old.bytes();
    answer(unsafe {
        raw::mipsuqal_report(old.as_ptr(), old.len(), feed.as_ptr(), feed.len(), out.as_mut_ptr(), out.len())
    })
}

/// The alerts of a supplier's GTFS Realtime message, as an alert sheet of the feed in document 01's bytes. No overlay
/// is read or written: [`crate::Panel::alert_sheet_bytes`] takes the sheet, and [`crate::Panel::alert_message`] does
/// both.
///
/// ```
/// use mipsuqal::{feed_alerts, AlertSheet, Form};
/// # let data = concat!(env!("CARGO_MANIFEST_DIR"), "/../../crates/ride/data");
/// # let message = std::fs::read(format!("{data}/city.alerts.pb")).unwrap();
/// let sheet = AlertSheet::decode(&feed_alerts("city", &message)?)?;
/// assert_eq!(sheet.alerts[0].header.as_deref(), Some("Line B: slow through Chatelet"));
/// assert_eq!(sheet.alerts[0].routes, ["city:B"]);
/// assert_eq!(feed_alerts("city", &[])?, [1, 0]); // no alerts; the zero is the sheet's own
/// # Ok::<(), Box<dyn std::error::Error>>(())
/// ```
pub fn feed_alerts(feed: &str, message: &[u8]) -> Result<Vec<u8>, Refusal> {
    let mut out = vec![0; SHEET];
    answer(unsafe {
        raw::mipsuqal_feed_alerts(
            feed.as_ptr(),
            feed.len(),
            message.as_ptr(),
            message.len(),
            out.as_mut_ptr(),
            out.len(),
        )
    })?;
    out.truncate(end(Kind::AlertSheet, &out));
    Ok(out)
}

/// The lengths that the library publishes, in the order of their numbers, up to the first number without one.
pub fn published_lengths() -> Vec<usize> {
    (0..).map(|number| unsafe { raw::mipsuqal_length(number) }).take_while(|length| *length > 0).collect()
}

/// A kind of form that a caller cuts: see [`end`].
#[derive(Clone, Copy, Debug, PartialEq, Eq)]
pub enum Kind {
    Card = 0,
    AlertSheet = 1,
    VehicleSheet = 2,
}

/// How many bytes the form has that stands in front, whatever follows; 0 where none stands there.
///
/// ```
/// use mipsuqal::{end, Kind};
/// let sheet = [1, 0, 0, 0]; // no alerts, and zeros behind: the first zero is the sheet's own
/// assert_eq!(sheet[..end(Kind::AlertSheet, &sheet)], [1, 0]);
/// assert_eq!(end(Kind::AlertSheet, &[1]), 0);
/// ```
pub fn end(kind: Kind, bytes: &[u8]) -> usize {
    unsafe { raw::mipsuqal_end(kind as u32, bytes.as_ptr(), bytes.len()) }
}

#[cfg(test)]
mod tests {
    use super::*;

    fn lengths(work: &Work) -> [usize; 7] {
        let Work { keys, marks, order, candidates, met, noted, known, .. } = work;
        [keys.len(), marks.len(), order.len(), candidates.len(), met.len(), noted.len(), known.len()]
    }

    #[test]
    fn buffers_are_as_long_as_the_library_publishes() {
        let work = crate::overlay::zeroed::<Work>();
        let ours = [[Overlay::LENGTH, CARD, REPORT].as_slice(), &lengths(&work), &[SHEET]].concat();
        assert_eq!(published_lengths(), ours);
    }
}
