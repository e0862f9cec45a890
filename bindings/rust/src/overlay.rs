//! Overlays: buffers of the published length, in pairs that take turns.
use std::alloc::{alloc_zeroed, handle_alloc_error, Layout};

/// An overlay's buffer: exactly as long as published. Zeros are no overlay yet; a fresh call makes one of them.
#[repr(transparent)]
pub struct Overlay([u8; Overlay::LENGTH]);

impl Overlay {
    pub const LENGTH: usize = 111_398_044;

    /// Zeros. Pages that are never written cost no memory.
    pub fn zeroed() -> Box<Overlay> {
        zeroed()
    }

    /// Bytes of one's own as an overlay's buffer; none where they are not as long.
    pub fn of_bytes(bytes: &[u8]) -> Option<&Overlay> {
        let array: &[u8; Overlay::LENGTH] = bytes.try_into().ok()?;
        // The same bytes under another name: `Overlay` is transparent.
        Some(unsafe { &*std::ptr::from_ref(array).cast() })
    }

    pub fn of_bytes_mut(bytes: &mut [u8]) -> Option<&mut Overlay> {
        let array: &mut [u8; Overlay::LENGTH] = bytes.try_into().ok()?;
        Some(unsafe { &mut *std::ptr::from_mut(array).cast() })
    }

    pub fn bytes(&self) -> &[u8] {
        &self.0
    }

    pub(crate) fn bytes_mut(&mut self) -> &mut [u8] {
        &mut self.0
    }
}

/// Types for which zeros are a value.
pub(crate) trait Zeros {}
impl Zeros for Overlay {}
impl Zeros for crate::calls::Work {}

/// Zeros straight from the allocator: no copy over the stack, and no page touched.
pub(crate) fn zeroed<T: Zeros>() -> Box<T> {
    let layout = Layout::new::<T>();
    // The layout is not empty, and zeros are a value of T.
    unsafe {
        let place = alloc_zeroed(layout);
        if place.is_null() {
            handle_alloc_error(layout);
        }
        Box::from_raw(place.cast())
    }
}

/// Where a panel keeps its two overlays: one counts, the other takes what the next call writes.
pub trait Overlays {
    /// The one that counts.
    fn current(&self) -> &Overlay;
    /// The one that counts, and the other.
    fn both(&mut self) -> (&Overlay, &mut Overlay);
    /// From now on the other one counts.
    fn turn(&mut self);
}

/// Two overlays in memory.
pub struct InMemory {
    overlays: [Box<Overlay>; 2],
    first_counts: bool,
}

impl InMemory {
    pub fn new() -> Self {
        InMemory { overlays: [Overlay::zeroed(), Overlay::zeroed()], first_counts: true }
    }
}

impl Default for InMemory {
    fn default() -> Self {
        InMemory::new()
    }
}

impl Overlays for InMemory {
    fn current(&self) -> &Overlay {
        &self.overlays[usize::from(!self.first_counts)]
    }

    fn both(&mut self) -> (&Overlay, &mut Overlay) {
        let [first, second] = &mut self.overlays;
        if self.first_counts {
            (first, second)
        } else {
            (second, first)
        }
    }

    fn turn(&mut self) {
        self.first_counts = !self.first_counts;
    }
}
