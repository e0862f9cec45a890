//! Faults put around the calls, each of which the judge has to find.
use crate::memory::bytes;
use differential::lent::{for_tests, widths, Calls, Lent};
use differential::panel::Call;
use differential::states::writes;

unsafe fn another_number(call: &Call, lent: &Lent) -> u32 {
    match for_tests(call, lent) {
        6 => 5,
        number => number,
    }
}

unsafe fn old_written(call: &Call, lent: &Lent) -> u32 {
    let number = for_tests(call, lent);
    bytes(lent.old, 1).iter_mut().take(1).for_each(|byte| *byte = 0);
    number
}

unsafe fn work_left(call: &Call, lent: &Lent) -> u32 {
    let number = for_tests(call, lent);
    let slices = lent.written.iter().zip(widths(call));
    slices.skip(1).last().and_then(|(slice, width)| bytes(*slice, *width).last_mut()).map(|byte| *byte = 1);
    number
}

unsafe fn output_left(call: &Call, lent: &Lent) -> u32 {
    let number = for_tests(call, lent);
    let out = bytes(lent.written[0], 1).last_mut();
    out.filter(|_| number == 7).map(|byte| *byte = 1);
    number
}

unsafe fn another_overlay(call: &Call, lent: &Lent) -> u32 {
    let number = for_tests(call, lent);
    let version = bytes(lent.written[0], 1).get_mut(1);
    version.filter(|_| number == 0 && writes(call)).map(|byte| *byte ^= 1);
    number
}

unsafe fn zeros_behind_missing(call: &Call, lent: &Lent) -> u32 {
    let number = for_tests(call, lent);
    let last = bytes(lent.written[0], 1).last_mut();
    last.filter(|_| number == 0 && matches!(call, Call::Card { .. })).map(|byte| *byte = 1);
    number
}

pub const FAULTS: [(&str, Calls); 6] = [
    ("another number", another_number),
    ("the old overlay written", old_written),
    ("a working slice left", work_left),
    ("a refused output left", output_left),
    ("another overlay", another_overlay),
    ("no zeros behind a card", zeros_behind_missing),
];

/// Reads a byte past the end of its input, where no one may touch memory.
pub unsafe fn past_the_end(call: &Call, lent: &Lent) -> u32 {
    let read = lent.input.start.add(lent.input.length).read_volatile();
    for_tests(call, lent) + u32::from(read)
}
