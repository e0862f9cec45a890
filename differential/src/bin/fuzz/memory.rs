//! The memory that calls are lent: each slice of its own, with pages that no one may touch next to it, or on the heap.
use differential::guarded::{mapped, PAGE};
use differential::lent::{feed, widths, Lent, Slice};
use differential::panel::Call;
use differential::questions::LONGEST_INPUT;
use differential::turns::{input, lengths};
use std::alloc::{alloc_zeroed, dealloc, Layout};

/// Where a slice lies: its last byte before a page that no one may touch, its first byte behind one, or in a block of
/// the heap that is as long as the slice, around which valgrind looks.
#[derive(Clone, Copy, PartialEq)]
pub enum Side {
    Behind,
    Before,
    Heap,
}

/// Room for one slice.
pub struct Region {
    side: Side,
    start: *mut u8,
    room: usize,
}

impl Region {
    pub fn of(side: Side, most: usize) -> Self {
        if side == Side::Heap {
            return Region { side, start: std::ptr::null_mut(), room: 0 };
        }
        let room = most.next_multiple_of(PAGE);
        Region { side, start: mapped(room), room }
    }

    /// So many elements of so many bytes.
    pub fn lend(&mut self, width: usize, length: usize) -> Slice {
        let bytes = width * length;
        let start = match self.side {
            Side::Behind => unsafe { self.start.add(self.room - bytes) },
            Side::Before => self.start,
            Side::Heap => self.anew(bytes),
        };
        Slice { start, length }
    }

    fn anew(&mut self, bytes: usize) -> *mut u8 {
        let layout = |bytes| Layout::from_size_align(bytes, 8).expect("a layout");
        unsafe {
            if self.room > 0 {
                dealloc(self.start, layout(self.room));
            }
            self.room = bytes.max(1);
            self.start = alloc_zeroed(layout(self.room));
        }
        self.start
    }
}

/// A slice's bytes.
pub fn bytes<'a>(slice: Slice, width: usize) -> &'a mut [u8] {
    unsafe { std::slice::from_raw_parts_mut(slice.start, slice.length * width) }
}

pub struct Memory {
    old: Region,
    feed: Region,
    input: Region,
    written: Vec<Region>,
}

/// How long feed ids and inputs are at most.
pub const INPUT: usize = LONGEST_INPUT + 1;

impl Memory {
    /// For overlays of at most so many bytes.
    pub fn of(side: Side, overlay: usize) -> Self {
        let region = |most| Region::of(side, most + PAGE);
        // Working slices, at each place the longer of a message's and a card's: keys, then words of 32 bits.
        let [keys, words @ ..] = [280_713, 6_147, 8_208, 4_096];
        let written = [overlay.max(65_536), keys].into_iter().chain(words.map(|length| 4 * length));
        Memory {
            old: region(overlay),
            feed: region(INPUT),
            input: region(INPUT),
            written: written.map(region).collect(),
        }
    }

    /// What a call takes, the lengths of what it writes being those asked for and a difference for each.
    pub fn lend(&mut self, call: &Call, old: &[u8], by: &dyn Fn(usize) -> isize) -> Lent {
        let copied = |region: &mut Region, from: &[u8]| {
            let slice = region.lend(1, from.len());
            bytes(slice, 1).copy_from_slice(from);
            slice
        };
        let asked = lengths(call, old.len()).into_iter().zip(widths(call)).enumerate();
        Lent {
            old: copied(&mut self.old, old),
            feed: copied(&mut self.feed, feed(call)),
            input: copied(&mut self.input, input(call)),
            written: asked
                .zip(&mut self.written)
                .map(|((place, (length, width)), region)| {
                    region.lend(*width, length.saturating_add_signed(by(place)))
                })
                .collect(),
        }
    }
}
