//! The passes over zeros that calls make at the published length, and the memory that overlays take there.
use crate::calls::after;
use crate::clock::{best, millis};
use crate::inputs::{full, one_trip, to_feed, FEED};
use differential::panel::Call;
use differential::states::{open, States};
use differential::turns::OVERLAY;
use std::fs::File;
use std::hint::black_box;
use std::os::unix::fs::FileExt;

const PAGE: usize = 4_096;

/// Memory that an overlay of the published length may take beyond the bytes in use.
const SPARE: usize = 1 << 20;

/// Bytes of memory of its own behind a buffer: by the pages that the system has given it, read-only zeros apart.
fn own_memory(buffer: &[u8]) -> usize {
    let (from, till) = (buffer.as_ptr() as usize, buffer.as_ptr() as usize + buffer.len());
    let pages = File::open("/proc/self/pagemap").expect("the page table");
    let flags = File::open("/proc/kpageflags").expect("the pages' kinds");
    let word = |file: &File, place: usize| {
        let mut bytes = [0; 8];
        file.read_exact_at(&mut bytes, 8 * place as u64).expect("a page's entry");
        u64::from_le_bytes(bytes)
    };
    let given = |page: &usize| {
        let entry = word(&pages, *page);
        let is_zero = || word(&flags, (entry & ((1 << 55) - 1)) as usize) >> 24 & 1 == 1;
        entry >> 63 == 1 && !is_zero()
    };
    (from / PAGE..till.div_ceil(PAGE)).filter(given).count() * PAGE
}

/// Whether overlays take no more memory than they may.
pub fn memory() -> bool {
    let within = little_more();
    println!();
    zeros();
    within
}

/// Whether a hundred messages leave each overlay little more memory than the bytes in use. An overlay cannot have less:
/// then it was measured wrongly.
fn little_more() -> bool {
    let messages = [full(0..500), one_trip(), full(100..600)].map(|message| to_feed(FEED, &message));
    let mut states = after(States::of_panel(OVERLAY), &[]);
    for turn in 0..100 {
        assert_eq!(states.call(&messages[turn % 3]), 0);
    }
    println!("| after 100 messages | bytes in use | bytes of memory |\n|---|---|---|");
    states.overlays.iter().enumerate().fold(true, |within, (turn, overlay)| {
        let used = open(overlay).expect("an overlay");
        let own = own_memory(overlay);
        println!("| overlay {} | {used} | {own} |", turn + 1);
        assert!(own >= used, "less memory than what stands in it");
        within & (own <= used + SPARE)
    })
}

/// Of memory never written, where all pages are one, and of memory that was written once.
fn zeros() {
    println!("| zeros of the published length | checked, ms | left behind, ms |\n|---|---|---|");
    let mut states = States::of_panel(OVERLAY);
    for what in ["never written", "written once"] {
        let [made] = best(6, || [millis(|| states.call(&Call::Fresh))]);
        let [opened] = best(6, || [millis(|| open(black_box(states.overlay())))]);
        println!("| memory {what} | {opened:.1} | {made:.1} |");
        states.overlays.iter_mut().for_each(|overlay| overlay.fill(1));
        (0..2).for_each(|_| assert_eq!(states.call(&Call::Fresh), 0));
    }
}
