//! One call on lent memory, and what holds of every call: its number and output are those of the second reading, a
//! refused call's output and every working slice are zeros, and what it reads stays.
use crate::memory::{bytes, Memory};
use crate::watch::moved;
use differential::after::{after, Given};
use differential::form::{Form, Reader};
use differential::layout::{held, used, zeros, Overlay};
use differential::lent::{feed, kind, widths, Calls, Lent, NAMES};
use differential::panel::Call;
use differential::papers::{Card, Leg, Transit};
use differential::random::Random;
use differential::states::writes;
use differential::turns::{input, lengths, OVERLAY};

/// A buffer, and the state that it holds.
#[derive(Clone)]
pub struct Old {
    pub buffer: Vec<u8>,
    pub state: Option<Overlay>,
}

impl Old {
    pub fn of(buffer: Vec<u8>) -> Self {
        let state = held(&buffer);
        Old { buffer, state }
    }
}

/// What a slice holds before a call.
const ANY: u8 = 0xa5;

/// One call in so many finds all that it writes filled; the others some bytes of it.
const FILLED: usize = 64;

pub struct Judge {
    calls: Calls,
    memory: Memory,
    /// Whether overlays have the published length.
    pub published: bool,
    /// Answers by call and number.
    pub numbers: [[u64; 9]; 6],
    pub differ: u64,
    pub first: Option<String>,
}

impl Judge {
    pub fn new(calls: Calls, memory: Memory, published: bool) -> Self {
        Judge { calls, memory, published, numbers: [[0; 9]; 6], differ: 0, first: None }
    }

    /// A call with the lengths of what it writes changed; the overlay that it leaves.
    pub fn tried(
        &mut self,
        random: &mut Random,
        call: &Call,
        old: &Old,
        by: &dyn Fn(usize) -> isize,
    ) -> Option<Vec<u8>> {
        moved();
        let lent = self.memory.lend(call, &old.buffer, by);
        stain(random, call, &lent);
        let number = unsafe { (self.calls)(call, &lent) };
        self.numbers[kind(call)][(number as usize).min(8)] += 1;
        let expected = self.expected(call, old, &lent);
        let wrong = number != expected.as_ref().map_or_else(|number| u32::from(*number), |_| 0);
        let holds = if wrong { Err("another number") } else { kept(call, old, &lent) };
        if let Err(what) = holds.and_then(|()| is_given(&expected, bytes(lent.written[0], 1))) {
            self.differ += 1;
            let written = used(&old.buffer).escape_ascii();
            let told =
                || format!("{what} ({number}): {call:?} on {written}, {} bytes in all", old.buffer.len());
            self.first.get_or_insert_with(told);
            return None;
        }
        (number == 0 && writes(call)).then(|| bytes(lent.written[0], 1).to_vec())
    }

    /// Questions 1 and 2, and what the second reading says of the others.
    fn expected(&self, call: &Call, old: &Old, lent: &Lent) -> Result<Given, u8> {
        if !self.sized(call, old, lent) {
            return Err(1);
        }
        match (&old.state, call) {
            (_, Call::Fresh) => after(&Overlay::default(), call, lent.written[0].length),
            (None, _) => Err(2),
            (Some(state), _) => after(state, call, old.buffer.len()),
        }
    }

    fn sized(&self, call: &Call, old: &Old, lent: &Lent) -> bool {
        let overlay = if self.published { OVERLAY } else { old.buffer.len() };
        // A fresh overlay for tests is as long as its buffer, which has room for a state.
        if *call == Call::Fresh && !self.published {
            return lent.written[0].length >= 3;
        }
        let asked = lengths(call, overlay);
        let is_old = *call == Call::Fresh || old.buffer.len() == overlay;
        is_old && lent.written.iter().zip(asked).all(|(slice, length)| slice.length == length)
    }

    pub fn tried_in_all(&self) -> u64 {
        self.numbers.as_flattened().iter().sum()
    }

    pub fn print(&self) {
        for (name, numbers) in NAMES.iter().zip(&self.numbers) {
            let counts: Vec<_> = numbers.iter().enumerate().filter(|(_, count)| **count > 0).collect();
            let told: Vec<_> = counts.iter().map(|(number, count)| format!("{number}: {count}")).collect();
            println!("  {name}: {}", told.join(", "));
        }
        if let Some(first) = &self.first {
            println!("the first: {first}");
        }
    }
}

/// Other bytes than zeros in what the call writes.
fn stain(random: &mut Random, call: &Call, lent: &Lent) {
    let all = random.once_in(FILLED);
    for (slice, width) in lent.written.iter().zip(widths(call)) {
        let written = bytes(*slice, *width);
        if all || written.len() <= 4_096 {
            written.fill(ANY);
        } else {
            let place = random.below(written.len());
            let last = written.len() - 1;
            [0, place, last].iter().for_each(|place| written[*place] = ANY);
        }
    }
}

/// What a call reads stays, and its working slices are zeros.
fn kept(call: &Call, old: &Old, lent: &Lent) -> Result<(), &'static str> {
    if bytes(lent.old, 1) != old.buffer {
        return Err("the old overlay is written");
    }
    if bytes(lent.feed, 1) != feed(call) || bytes(lent.input, 1) != input(call) {
        return Err("the input is written");
    }
    let mut work = lent.written.iter().zip(widths(call)).skip(1);
    if !work.all(|(slice, width)| zeros(bytes(*slice, *width))) {
        return Err("a working slice is not zeros");
    }
    Ok(())
}

fn is_given(expected: &Result<Given, u8>, out: &[u8]) -> Result<(), &'static str> {
    let then_zeros = |written: &[u8]| out.starts_with(written) && zeros(&out[written.len()..]);
    let (holds, what) = match expected {
        Err(_) => (zeros(out), "a refused call's output is not zeros"),
        Ok(Given::State(state)) => (then_zeros(&state.written()), "another overlay"),
        Ok(Given::Report(report)) => (then_zeros(&report.written()), "another report"),
        Ok(Given::Arrived(card)) => (finishes(card, out), "no finished card of that one"),
    };
    if holds {
        Ok(())
    } else {
        Err(what)
    }
}

/// Whether an output is a card and zeros, its headers ascending, the duration as it has to be, and all else that no
/// call changes as it arrived.
fn finishes(arrived: &Card, out: &[u8]) -> bool {
    let mut reader = Reader(out);
    Card::read(&mut reader).is_some_and(|finished| {
        zeros(reader.0)
            && finished.headers.windows(2).all(|pair| pair[0] < pair[1])
            && finished.duration == finished.arrival - finished.departure
            && unchanged(arrived) == unchanged(&finished)
    })
}

/// The legs without what a call may change.
fn unchanged(card: &Card) -> Vec<Leg> {
    let mut legs = card.legs.clone();
    for leg in &mut legs {
        let Leg::Transit(leg) = leg else { continue };
        let Transit { realtime_departure, realtime_arrival, departure_delay, arrival_delay, .. } = leg;
        let values = [realtime_departure, realtime_arrival, departure_delay, arrival_delay];
        values.into_iter().for_each(|value| *value = None);
        leg.cancelled = false;
        (leg.latitude, leg.longitude, leg.updated) = (None, None, None);
        for middle in &mut leg.middles {
            (middle.realtime_arrival, middle.realtime_departure) = (None, None);
        }
    }
    legs
}
