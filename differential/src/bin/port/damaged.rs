//! Question 2: damaged overlays, by the port and by the second reading.
use differential::form::Form;
use differential::gens::{damaged, history};
use differential::layout::{held, overlay, Overlay};
use differential::panel::{Call, Panel};
use differential::random::Random;
use differential::states::open;

/// Zeros behind a state.
const ROOM: usize = 7;
/// The longest overlay of which each byte is changed.
const SMALL: usize = 400;

/// How many buffers are judged otherwise, of those made from so many overlays.
pub fn run(seed: u64, overlays: usize) -> usize {
    let mut random = Random::new(seed);
    let mut judged = Judged::default();
    let mut small = 0;
    while small < overlays {
        let mut panel = Panel::default();
        // A card leaves the overlay as it is, and the original may panic over one.
        let calls = history(&mut random, 6).into_iter().filter(|call| !matches!(call, Call::Card { .. }));
        for call in calls {
            panel.run(&call).expect("an answer");
        }
        let state = overlay(&panel.original);
        for state in [&state, &swapped(&mut random, &state)] {
            let mut buffer = state.written();
            buffer.resize(buffer.len() + ROOM, 0);
            judged.buffer(&buffer);
            for _ in 0..8 {
                judged.buffer(&damaged(&mut random, buffer.clone()));
            }
            if buffer.len() <= SMALL {
                small += 1;
                judged.changed(&mut random, buffer);
            }
        }
    }
    judged.print();
    judged.differ
}

#[derive(Default)]
struct Judged {
    buffers: usize,
    overlays: usize,
    differ: usize,
}

impl Judged {
    fn buffer(&mut self, buffer: &[u8]) {
        let expected = held(buffer).map(|state| state.written().len());
        self.buffers += 1;
        self.overlays += usize::from(expected.is_some());
        self.differ += usize::from(open(buffer) != expected);
    }

    /// Each byte changed, and each length below its own.
    fn changed(&mut self, random: &mut Random, mut buffer: Vec<u8>) {
        for place in 0..buffer.len() {
            let byte = buffer[place];
            for other in [byte ^ 1, byte.wrapping_add(1), byte ^ 0x80, 0, random.bits() as u8] {
                buffer[place] = other;
                self.buffer(&buffer);
            }
            buffer[place] = byte;
        }
        for length in 0..buffer.len() {
            self.buffer(&buffer[..length]);
        }
    }

    fn print(&self) {
        let Judged { buffers, overlays, differ } = self;
        println!("port: {buffers} buffers, {overlays} of them overlays, {differ} otherwise");
    }
}

/// The state with two neighbours exchanged in one of its lists, or an entry doubled.
fn swapped(random: &mut Random, state: &Overlay) -> Overlay {
    let mut state = state.clone();
    let kind = random.below(4);
    if kind == 0 {
        exchange(random, &mut state.feeds);
        return state;
    }
    if let Some(feed) = state.feeds.first_mut() {
        match kind {
            1 => exchange(random, &mut feed.trips),
            2 => exchange(random, &mut feed.vehicles),
            _ => {
                if let Some(entry) = feed.trips.first_mut() {
                    exchange(random, &mut entry.trip.updates);
                }
            }
        }
    }
    state
}

fn exchange<T: Clone>(random: &mut Random, list: &mut Vec<T>) {
    if list.len() > 1 {
        let place = random.below(list.len() - 1);
        list.swap(place, place + 1);
    } else if let Some(entry) = list.first().cloned() {
        list.push(entry);
    }
}
