//! A list of calls run on the port beside the original and the second reading, compared after each call; and run once
//! more, with fields added to its messages, beside the first run.
use crate::tally::Tally;
use differential::form::Form;
use differential::layout::{held, overlay, used, zeros};
use differential::panel::{Answer, Call, Panel};
use differential::states::{Fault, States};
use differential::turns::Turn;

/// What is not as it has to be.
pub type Mismatch = &'static str;

pub struct Runs {
    first: States,
    second: States,
    panel: Panel,
}

impl Runs {
    pub fn of(states: fn(usize) -> States) -> Self {
        Runs { first: states(0), second: states(0), panel: Panel::default() }
    }

    /// With faults put around the calls of the two runs.
    pub fn with(mut self, [first, second]: [Option<Fault>; 2]) -> Self {
        self.first.fault = first;
        self.second.fault = second;
        self
    }

    /// A list on fresh overlays of so many bytes.
    pub fn list(&mut self, length: usize, list: &[Turn], tally: &mut Tally) -> Result<(), Mismatch> {
        self.first.renew(length);
        self.second.renew(length);
        self.panel = Panel::default();
        self.turn(&Call::Fresh.into(), tally)?;
        for turn in list {
            self.turn(turn, tally)?;
        }
        tally.left(&self.panel);
        Ok(())
    }

    fn turn(&mut self, turn: &Turn, tally: &mut Tally) -> Result<(), Mismatch> {
        let turn = &Turn { spoilt: self.spoilt(turn), ..turn.clone() };
        let number = self.first.turn(turn, &turn.call)?;
        let answer = self.expected(turn, tally);
        tally.call(&turn.call, number, answer.as_ref());
        match answer {
            Some(answer) => self.compare(number, &answer)?,
            None if matches!((&turn.call, number), (Call::Card { .. }, 0 | 8)) => {}
            None => return Err("the original has no answer"),
        }
        if !self.is_left() {
            return Err("another overlay");
        }
        self.again(turn, number, tally)
    }

    /// The byte to be changed, where that leaves no overlay.
    fn spoilt(&mut self, turn: &Turn) -> Option<(usize, u8)> {
        let (place, bits) = turn.spoilt.filter(|_| turn.call != Call::Fresh)?;
        let old = self.first.old();
        let place = place % old.len();
        old[place] ^= bits;
        let is_none = held(old).is_none();
        old[place] ^= bits;
        is_none.then_some((place, bits))
    }

    /// What document 01 and the original give; nothing where the original panics.
    fn expected(&mut self, turn: &Turn, tally: &mut Tally) -> Option<Answer> {
        if turn.wrong.is_some() {
            return Some(Answer::Refused(1));
        }
        if turn.spoilt.is_some() {
            return Some(Answer::Refused(2));
        }
        let before = self.panel.clone();
        let answer = self.panel.run(&turn.call)?;
        let room = self.first.overlay().len();
        if answer == Answer::Written && overlay(&self.panel.original).written().len() > room {
            self.panel = before;
            tally.no_room += 1;
            return Some(Answer::Refused(7));
        }
        Some(answer)
    }

    fn compare(&self, number: u32, answer: &Answer) -> Result<(), Mismatch> {
        if number != u32::from(answer.number()) {
            return Err("another number");
        }
        match answer {
            Answer::Card(card) => {
                let found = &self.first.lent.card;
                let same = found.starts_with(card) && zeros(&found[card.len()..]);
                same.then_some(()).ok_or("another card")
            }
            Answer::Report(report) => {
                (self.first.lent.report == report.written()).then_some(()).ok_or("another report")
            }
            Answer::Refused(_) | Answer::Written => Ok(()),
        }
    }

    /// Whether the overlay is, byte for byte, the original's state and zeros, and is read back as that state.
    fn is_left(&self) -> bool {
        let state = overlay(&self.panel.original);
        let written = state.written();
        let buffer = self.first.overlay();
        buffer.starts_with(&written)
            && zeros(&buffer[written.len()..])
            && held(buffer).is_some_and(|found| found == state)
    }

    /// The second run's call gives the same: number, output and every byte of the overlay.
    fn again(&mut self, turn: &Turn, number: u32, tally: &mut Tally) -> Result<(), Mismatch> {
        let call = turn.with_more();
        tally.gained += usize::from(call != turn.call);
        let again = self.second.turn(turn, &call)?;
        let [one, other] = [&self.first, &self.second];
        let outputs = match &turn.call {
            Call::Card { .. } => one.lent.card == other.lent.card,
            Call::Report { .. } => one.lent.report == other.lent.report,
            _ => true,
        };
        let state = used(one.overlay());
        let overlays = other.overlay().starts_with(state) && zeros(&other.overlay()[state.len()..]);
        (again == number && outputs && overlays).then_some(()).ok_or("another answer with fields added")
    }
}
