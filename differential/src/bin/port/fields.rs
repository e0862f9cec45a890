//! Fields passed over, whatever they hold.
use differential::gens::{damaged, message};
use differential::port;
use differential::random::Random;
use differential::tree::field_end;

const FIELDS: usize = 100_000;

/// How many have another end.
pub fn run(seed: u64) -> usize {
    let mut random = Random::new(seed);
    let (mut whole, mut differ) = (0, 0);
    for turn in 0..FIELDS {
        let message = message(&mut random);
        let message = if turn % 2 == 0 { message } else { damaged(&mut random, message) };
        let at = random.below(message.len() + 2);
        let expected = field_end(&message, at);
        whole += usize::from(expected.is_some());
        differ += usize::from(port::field_end(&message, at) != expected.unwrap_or(0));
    }
    println!("port: {FIELDS} fields passed over, {whole} of them whole, {differ} otherwise");
    differ
}
