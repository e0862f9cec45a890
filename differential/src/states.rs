//! The port's compiled calls on states.
use crate::layout::{used, zeros};
use crate::lent::{self, exported, feed, for_tests, Calls, Slice};
use crate::panel::Call;
use crate::turns::{input, Turn, CARD, CARD_WORK, MESSAGE_WORK, REPORT};

extern "C" {
    fn states_open(buffer: *const u8, length: usize) -> usize;
}

/// Question 2: where the state of a buffer ends; none where it is no overlay.
pub fn open(buffer: &[u8]) -> Option<usize> {
    let end = unsafe { states_open(buffer.as_ptr(), buffer.len()) };
    (end > 0).then_some(end)
}

/// A lent buffer, whatever its elements are.
pub trait Buffer {
    /// Anything but zeros; of a long one in some places, so that its memory is not all taken.
    fn spoil(&mut self);
    fn is_zeros(&self) -> bool;
    fn lengthen(&mut self, by: isize);
    fn lend(&mut self) -> Slice;
}

/// A longer buffer is a long one.
const LONG: usize = 2 << 20;

macro_rules! buffers {
    ($($element:ty)*) => {
        $(impl Buffer for Vec<$element> {
            fn spoil(&mut self) {
                const ANY: $element = 0xa5a5_a5a5u32 as $element;
                if self.len() <= LONG {
                    return self.fill(ANY);
                }
                self[..LONG].fill(ANY);
                self.iter_mut().step_by(LONG).for_each(|element| *element = ANY);
                self.iter_mut().rev().take(1).for_each(|element| *element = ANY);
            }

            fn is_zeros(&self) -> bool {
                let length = std::mem::size_of_val(self.as_slice());
                zeros(unsafe { std::slice::from_raw_parts(self.as_ptr().cast(), length) })
            }

            fn lengthen(&mut self, by: isize) {
                self.resize(self.len().wrapping_add_signed(by), 0);
            }

            fn lend(&mut self) -> Slice {
                Slice { start: self.as_mut_ptr().cast(), length: self.len() }
            }
        })*
    };
}
buffers!(u8 u16 u32);

pub struct MessageWork {
    pub keys: Vec<u8>,
    pub marks: Vec<u32>,
    pub order: Vec<u32>,
}

pub struct CardWork {
    pub candidates: Vec<u16>,
    pub met: Vec<u16>,
    pub noted: Vec<u32>,
    pub known: Vec<u32>,
}

/// The buffers that calls are given besides overlays.
pub struct Lent {
    pub card: Vec<u8>,
    pub report: Vec<u8>,
    pub message_work: MessageWork,
    pub card_work: CardWork,
}

impl Default for Lent {
    fn default() -> Self {
        let [keys, marks, order] = MESSAGE_WORK;
        let [candidates, met, noted, known] = CARD_WORK;
        let words = |length| vec![0; length];
        Lent {
            card: vec![0; CARD],
            report: vec![0; REPORT],
            message_work: MessageWork { keys: vec![0; keys], marks: words(marks), order: words(order) },
            card_work: CardWork {
                candidates: vec![0; candidates],
                met: vec![0; met],
                noted: words(noted),
                known: words(known),
            },
        }
    }
}

/// What befalls a call's buffers and number after it: for faults that a comparison has to find.
pub type Fault = fn(&mut States, &Call, u32) -> u32;

/// Two overlays that take turns, and what else calls are given.
pub struct States {
    pub overlays: [Vec<u8>; 2],
    /// Which of the two is the overlay that the last accepted writing call left.
    left: usize,
    pub lent: Lent,
    calls: Calls,
    pub fault: Option<Fault>,
}

impl States {
    /// Overlays of so many bytes, no one of them made yet. Memory that no call writes stays unwritten.
    pub fn of(length: usize) -> Self {
        let overlays = [vec![0; length], vec![0; length]];
        States { overlays, left: 0, lent: Lent::default(), calls: for_tests, fault: None }
    }

    /// Overlays of so many bytes for the panel's own calls.
    pub fn of_panel(length: usize) -> Self {
        States { calls: exported, ..States::of(length) }
    }

    /// Other overlays, of so many bytes.
    pub fn renew(&mut self, length: usize) {
        self.overlays = [vec![0; length], vec![0; length]];
        self.left = 0;
    }

    /// The overlay that the last accepted writing call left.
    pub fn overlay(&self) -> &[u8] {
        &self.overlays[self.left]
    }

    pub fn old(&mut self) -> &mut Vec<u8> {
        &mut self.overlays[self.left]
    }

    /// The overlay that the next writing call writes.
    pub fn new(&mut self) -> &mut Vec<u8> {
        &mut self.overlays[1 - self.left]
    }

    /// A call, whatever the buffers hold.
    pub fn call(&mut self, call: &Call) -> u32 {
        let read = |bytes: &[u8]| Slice { start: bytes.as_ptr().cast_mut(), length: bytes.len() };
        let lent = lent::Lent {
            old: read(self.overlay()),
            feed: read(feed(call)),
            input: read(input(call)),
            written: self.buffers(call).into_iter().map(Buffer::lend).collect(),
        };
        let number = unsafe { (self.calls)(call, &lent) };
        let number = self.fault.map_or(number, |fault| fault(self, call, number));
        if number == 0 && writes(call) {
            self.left = 1 - self.left;
        }
        number
    }

    /// The overlay before the last accepted writing call, again: no call writes it.
    pub fn back(&mut self) {
        self.left = 1 - self.left;
    }

    /// An overlay of these bytes and zeros.
    pub fn put(&mut self, bytes: &[u8]) {
        let overlay = self.old();
        overlay[..bytes.len()].copy_from_slice(bytes);
        overlay[bytes.len()..].fill(0);
    }

    /// What a call is given to write: its output, then its working buffers.
    pub fn buffers(&mut self, call: &Call) -> Vec<&mut dyn Buffer> {
        let new = &mut self.overlays[1 - self.left];
        let Lent { card, report, message_work, card_work } = &mut self.lent;
        match call {
            Call::Fresh | Call::AlertSheet { .. } | Call::VehicleSheet { .. } => vec![new],
            Call::Message { .. } => {
                let MessageWork { keys, marks, order } = message_work;
                vec![new, keys, marks, order]
            }
            Call::Card { .. } => {
                let CardWork { candidates, met, noted, known } = card_work;
                vec![card, candidates, met, noted, known]
            }
            Call::Report { .. } => vec![report],
        }
    }

    /// A call over buffers that hold anything, and its number; or what does not hold of it whatever it is: a refused
    /// call's output is zeros, working slices are zeros after each, and the old overlay stays.
    pub fn run(&mut self, call: &Call) -> Result<u32, &'static str> {
        let at = self.left;
        let before = used(&self.overlays[at]).to_vec();
        self.buffers(call).into_iter().for_each(Buffer::spoil);
        let number = self.call(call);
        let old = &self.overlays[at];
        if !old.starts_with(&before) || !zeros(&old[before.len()..]) {
            return Err("the old overlay is written");
        }
        let now = self.left;
        self.left = at;
        let zeros: Vec<_> = self.buffers(call).into_iter().map(|buffer| buffer.is_zeros()).collect();
        self.left = now;
        match &zeros[..] {
            [false, ..] if number != 0 => Err("a refused call's output is not zeros"),
            [_, work @ ..] if work.contains(&false) => Err("a working slice is not zeros"),
            _ => Ok(number),
        }
    }

    /// The same, with what is wrong in a turn; it is put right again after it.
    pub fn turn(&mut self, turn: &Turn, call: &Call) -> Result<u32, &'static str> {
        let at = self.left;
        if let Some((buffer, by)) = turn.wrong {
            self.buffers(call)[buffer].lengthen(by);
        }
        if let Some((place, bits)) = turn.spoilt {
            self.overlays[at][place] ^= bits;
        }
        let number = self.run(call);
        if let Some((place, bits)) = turn.spoilt {
            self.overlays[at][place] ^= bits;
        }
        let now = std::mem::replace(&mut self.left, at);
        if let Some((buffer, by)) = turn.wrong {
            self.buffers(call)[buffer].lengthen(-by);
        }
        self.left = now;
        number
    }
}

/// Whether an accepted call leaves another overlay.
pub fn writes(call: &Call) -> bool {
    !matches!(call, Call::Report { .. } | Call::Card { .. })
}
