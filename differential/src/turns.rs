//! Lists of calls as the comparison runs them: each call with what is wrong about its buffers, and with the message
//! that a second run gets instead.
use crate::bounds::bounds;
use crate::gens::{any_call, any_card, full_card, gained, of_a_trip};
use crate::panel::Call;
use crate::questions::{LONGEST_CARD, LONGEST_INPUT};
use crate::random::Random;

/// The published lengths of an overlay, of a finished card, of a report, and of the working buffers of a message and of
/// a card.
pub const OVERLAY: usize = 111_398_044;
pub const CARD: usize = 65_536;
pub const REPORT: usize = 25;
pub const MESSAGE_WORK: [usize; 3] = [280_713, 6_147, 2_049];
pub const CARD_WORK: [usize; 4] = [256, 256, 8_208, 4_096];

#[derive(Clone, Debug, PartialEq)]
pub struct Turn {
    pub call: Call,
    /// One of the call's buffers, its output before its working buffers, and by how much it is too long.
    pub wrong: Option<(usize, isize)>,
    /// A byte of the old overlay, and the bits of it that are otherwise in this call alone.
    pub spoilt: Option<(usize, u8)>,
    /// A message's bytes with fields added to them.
    pub more: Option<Vec<u8>>,
}

impl From<Call> for Turn {
    fn from(call: Call) -> Self {
        Turn { call, wrong: None, spoilt: None, more: None }
    }
}

impl Turn {
    /// The call of the second run.
    pub fn with_more(&self) -> Call {
        match (&self.call, &self.more) {
            (Call::Message { feed, .. }, Some(more)) => {
                Call::Message { feed: feed.clone(), message: more.clone() }
            }
            (call, _) => call.clone(),
        }
    }
}

/// The lengths that a call's buffers have to have where overlays are so long: its output's, its working buffers'.
pub fn lengths(call: &Call, overlay: usize) -> Vec<usize> {
    match call {
        Call::Fresh | Call::AlertSheet { .. } | Call::VehicleSheet { .. } => vec![overlay],
        Call::Message { .. } => [[overlay].as_slice(), &MESSAGE_WORK].concat(),
        Call::Card { .. } => [[CARD].as_slice(), &CARD_WORK].concat(),
        Call::Report { .. } => vec![REPORT],
    }
}

/// The bytes of a message, sheet or card.
pub fn input(call: &Call) -> &[u8] {
    match call {
        Call::Message { message: input, .. }
        | Call::AlertSheet { sheet: input, .. }
        | Call::VehicleSheet { sheet: input, .. }
        | Call::Card { card: input } => input,
        Call::Fresh | Call::Report { .. } => &[],
    }
}

/// A list of more bytes than this is a long one.
const LONG: usize = 4_000;

/// Lists by chance. Among the calls are those at each question's bound, and one past it.
pub struct Lists {
    random: Random,
    short: Vec<Vec<Call>>,
    long: Vec<Vec<Call>>,
}

impl Lists {
    pub fn new(seed: u64) -> Self {
        let all = bounds().into_iter().flat_map(|bound| [bound.within, bound.past].concat());
        let is_long = |list: &Vec<Call>| list.iter().map(|call| input(call).len()).sum::<usize>() > LONG;
        let (long, short) = all.partition(is_long);
        Lists { random: Random::new(seed), short, long }
    }

    /// A length for the overlays of a list: in some a state has no room.
    pub fn length(&mut self, list: &[Turn]) -> usize {
        let is_long = list.iter().any(|turn| input(&turn.call).len() > LONG);
        if is_long && self.random.once_in(2) {
            return 1 << 20;
        }
        self.random.pick(&[8 << 10, 8 << 10, 8 << 10, 32 << 10, 1 << 10, 256])
    }

    /// At most so many calls, the last of them a card.
    pub fn list(&mut self, most: usize) -> Vec<Turn> {
        let count = 1 + self.random.below(most);
        let mut calls = Vec::new();
        while calls.len() + 1 < count {
            self.add(&mut calls);
        }
        calls.truncate(count - 1);
        let random = &mut self.random;
        calls.push(if random.once_in(2) { any_card(random) } else { of_a_trip(random) });
        calls.into_iter().map(|call| self.turn(call)).collect()
    }

    fn add(&mut self, calls: &mut Vec<Call>) {
        let random = &mut self.random;
        match random.below(400) {
            0 => calls.extend(self.long[random.below(self.long.len())].iter().cloned()),
            1..=30 => calls.extend(self.short[random.below(self.short.len())].iter().cloned()),
            31..=38 => calls.push(Call::Fresh),
            39 => calls.push(Call::Card { card: vec![1; LONGEST_CARD + 1] }),
            40..=42 => calls.push(full_card(random)),
            43..=180 => calls.push(of_a_trip(random)),
            _ => calls.push(any_call(random)),
        }
    }

    /// Now and then with a wrong length, or on what is no overlay. An overlay that is made may have any length.
    fn turn(&mut self, call: Call) -> Turn {
        let random = &mut self.random;
        let buffers = lengths(&call, 0).len();
        let wrong = (call != Call::Fresh && random.once_in(40))
            .then(|| (random.below(buffers), random.pick(&[-1, 1])));
        let spoilt = random.once_in(40).then(|| (random.below(400), 1 << random.below(8)));
        Turn { wrong, spoilt, ..self.with_more(call) }
    }

    /// A message with fields added for the second run.
    pub fn with_more(&mut self, call: Call) -> Turn {
        let more = match &call {
            Call::Message { message, .. } => {
                Some(gained(&mut self.random, message)).filter(|more| more.len() <= LONGEST_INPUT)
            }
            _ => None,
        };
        Turn { more, ..call.into() }
    }
}
