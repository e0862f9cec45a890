//! The two buttons of the handlebar, as keys: m is mode, t is trip. A terminal says nothing of a key that is held but
//! by repeating it: m that repeats is held, and so is the key M.
use std::time::Duration;

#[derive(Clone, Copy, Debug, PartialEq)]
pub enum Press {
    /// The next view.
    Mode,
    /// The next train.
    Trip,
    /// Mode held and trip twice: the raw records.
    Records,
    Quit,
    Nothing,
}

#[derive(Default)]
pub struct Buttons {
    /// When mode was pressed, if that was the last key.
    last_mode: Option<Duration>,
    /// Until when mode counts as held, and how often trip was pressed meanwhile.
    held: Option<(Duration, u8)>,
}

/// A terminal repeats a key faster than that; nobody presses it so fast.
const REPEATED: Duration = Duration::from_millis(100);
/// How long mode counts as held after its last key.
const HELD: Duration = Duration::from_secs(2);

impl Buttons {
    /// What a key at a time means.
    pub fn press(&mut self, key: u8, at: Duration) -> Press {
        let last_mode = self.last_mode.take();
        match key {
            b'm' => self.mode(at, last_mode),
            b'M' => self.hold(at),
            b't' => self.trip(at),
            b'q' | 3 => Press::Quit,
            _ => Press::Nothing,
        }
    }

    fn hold(&mut self, at: Duration) -> Press {
        self.held = Some((at + HELD, 0));
        Press::Nothing
    }

    fn mode(&mut self, at: Duration, last: Option<Duration>) -> Press {
        let repeated = last.is_some_and(|last| at.saturating_sub(last) < REPEATED);
        self.last_mode = Some(at);
        if repeated {
            return self.hold(at);
        }
        self.held = None;
        Press::Mode
    }

    fn trip(&mut self, at: Duration) -> Press {
        match self.held.take().filter(|(until, _)| at < *until) {
            None => Press::Trip,
            Some((until, 0)) => {
                self.held = Some((until, 1));
                Press::Nothing
            }
            Some(_) => Press::Records,
        }
    }
}

#[cfg(test)]
mod tests {
    use super::*;

    fn pressed(keys: &[(u8, u64)]) -> Vec<Press> {
        let mut buttons = Buttons::default();
        keys.iter().map(|(key, at)| buttons.press(*key, Duration::from_millis(*at))).collect()
    }

    #[test]
    fn short_presses() {
        let keys = [(b'm', 0), (b't', 300), (b't', 600), (b'm', 900), (b'x', 950), (b'q', 1000)];
        let due = [Press::Mode, Press::Trip, Press::Trip, Press::Mode, Press::Nothing, Press::Quit];
        assert_eq!(pressed(&keys), due);
        assert_eq!(pressed(&[(b'm', 0), (b't', 20), (b'm', 40)]), [Press::Mode, Press::Trip, Press::Mode]);
    }

    #[test]
    fn mode_held_and_trip_twice() {
        let by_key = [(b'M', 0), (b't', 500), (b't', 900), (b't', 1000)];
        assert_eq!(pressed(&by_key), [Press::Nothing, Press::Nothing, Press::Records, Press::Trip]);
        let by_repeating = [(b'm', 0), (b'm', 400), (b'm', 430), (b'm', 460), (b't', 600), (b't', 900)];
        assert_eq!(
            pressed(&by_repeating)[2..],
            [Press::Nothing, Press::Nothing, Press::Nothing, Press::Records]
        );
    }

    #[test]
    fn held_too_long_ago() {
        assert_eq!(pressed(&[(b'M', 0), (b't', 2000), (b't', 2100)])[1..], [Press::Trip, Press::Trip]);
        assert_eq!(pressed(&[(b'M', 0), (b'm', 300), (b't', 600)])[1..], [Press::Mode, Press::Trip]);
    }
}
