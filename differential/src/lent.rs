//! The port's compiled calls on memory that someone else has laid out.
use crate::panel::Call;

/// A lent slice: where it begins, and how many elements it has.
#[derive(Clone, Copy)]
pub struct Slice {
    pub start: *mut u8,
    pub length: usize,
}

/// What a call is lent.
pub struct Lent {
    pub old: Slice,
    pub feed: Slice,
    pub input: Slice,
    /// The output, then the working slices.
    pub written: Vec<Slice>,
}

type From = *const u8;
type Bytes = *mut u8;
type Halves = *mut u16;
type Words = *mut u32;

/// Declares the six calls by their names, and a value that has them.
macro_rules! calls {
    ($calls:ident: $fresh:ident $message:ident $alerts:ident $vehicles:ident $card:ident $report:ident) => {
        extern "C" {
            fn $fresh(_: Bytes, _: usize) -> u32;
            #[rustfmt::skip]
            fn $message(
                _: From, _: usize, _: From, _: usize, _: From, _: usize, _: Bytes, _: usize,
                _: Bytes, _: usize, _: Words, _: usize, _: Words, _: usize,
            ) -> u32;
            #[rustfmt::skip]
            fn $alerts(
                _: From, _: usize, _: From, _: usize, _: From, _: usize, _: Bytes, _: usize,
            ) -> u32;
            #[rustfmt::skip]
            fn $vehicles(
                _: From, _: usize, _: From, _: usize, _: From, _: usize, _: i64, _: Bytes, _: usize,
            ) -> u32;
            #[rustfmt::skip]
            fn $card(
                _: From, _: usize, _: From, _: usize, _: Bytes, _: usize,
                _: Halves, _: usize, _: Halves, _: usize, _: Words, _: usize, _: Words, _: usize,
            ) -> u32;
            fn $report(_: From, _: usize, _: From, _: usize, _: Bytes, _: usize) -> u32;
        }

        /// # Safety
        /// Each slice that the call takes is valid for its length, none that it writes overlaps another, and words are
        /// aligned.
        #[rustfmt::skip]
        pub unsafe fn $calls(call: &Call, lent: &Lent) -> u32 {
            let Lent { old: o, feed: f, input: i, written } = lent;
            let (n, w) = (written[0], &written[1..]);
            match call {
                Call::Fresh => $fresh(n.start, n.length),
                Call::Message { .. } => $message(
                    o.start, o.length, f.start, f.length, i.start, i.length, n.start, n.length,
                    w[0].start, w[0].length, w[1].start.cast(), w[1].length, w[2].start.cast(), w[2].length,
                ),
                Call::AlertSheet { .. } => $alerts(
                    o.start, o.length, f.start, f.length, i.start, i.length, n.start, n.length,
                ),
                Call::VehicleSheet { clock, .. } => $vehicles(
                    o.start, o.length, f.start, f.length, i.start, i.length, *clock, n.start, n.length,
                ),
                Call::Card { .. } => $card(
                    o.start, o.length, i.start, i.length, n.start, n.length,
                    w[0].start.cast(), w[0].length, w[1].start.cast(), w[1].length,
                    w[2].start.cast(), w[2].length, w[3].start.cast(), w[3].length,
                ),
                Call::Report { .. } => $report(o.start, o.length, f.start, f.length, n.start, n.length),
            }
        }
    };
}

calls!(for_tests: states_fresh states_message states_alert_sheet states_vehicle_sheet states_card states_report);
calls!(
    exported: mipsuqal_fresh mipsuqal_message mipsuqal_alert_sheet mipsuqal_vehicle_sheet mipsuqal_card mipsuqal_report
);

extern "C" {
    fn mipsuqal_end(kind: u32, bytes: From, length: usize) -> usize;
}

/// How many bytes the form of a kind has that stands in front.
pub fn end(kind: u32, bytes: &[u8]) -> usize {
    // A reference's slice is valid for its length.
    unsafe { mipsuqal_end(kind, bytes.as_ptr(), bytes.len()) }
}

/// The panel's calls, which take an overlay of the published length, or those for tests, which take any.
pub type Calls = unsafe fn(&Call, &Lent) -> u32;

/// Bytes of an element of a call's output and of its working slices, in their order.
pub fn widths(call: &Call) -> &'static [usize] {
    match call {
        Call::Message { .. } => &[1, 1, 4, 4],
        Call::Card { .. } => &[1, 2, 2, 4, 4],
        _ => &[1],
    }
}

pub fn feed(call: &Call) -> &[u8] {
    match call {
        Call::Message { feed, .. }
        | Call::AlertSheet { feed, .. }
        | Call::VehicleSheet { feed, .. }
        | Call::Report { feed } => feed,
        Call::Fresh | Call::Card { .. } => &[],
    }
}

pub const NAMES: [&str; 6] = ["fresh", "message", "alert sheet", "vehicle sheet", "card", "report"];

/// The place of a call's name.
pub fn kind(call: &Call) -> usize {
    match call {
        Call::Fresh => 0,
        Call::Message { .. } => 1,
        Call::AlertSheet { .. } => 2,
        Call::VehicleSheet { .. } => 3,
        Call::Card { .. } => 4,
        Call::Report { .. } => 5,
    }
}
