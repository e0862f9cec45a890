//! The comparison's own test: what the original gives in small cases beside what document 01 says, each
//! question at its bound and one past it, the forms read and written back, the largest overlay, alerts straight from
//! messages, and random messages and lists of calls.
mod at_random;
mod feed_alerts;
mod largest;
mod questions;
mod round_trips;
mod rules;
mod tell;

/// Cases so far, told one to a line.
#[derive(Default)]
pub struct Tally {
    agree: usize,
    differ: usize,
}

impl Tally {
    fn case(&mut self, name: &str, input: &str, answer: &str, expected: &str) {
        let agrees = answer == expected;
        println!("{name}: {input}: {answer}");
        if agrees {
            self.agree += 1;
        } else {
            println!("  differs: document 01 gives {expected}");
            self.differ += 1;
        }
    }
}

fn main() {
    let mut tally = Tally::default();
    rules::run(&mut tally);
    questions::run(&mut tally);
    round_trips::run(&mut tally);
    largest::run(&mut tally);
    feed_alerts::run(&mut tally);
    at_random::run(&mut tally);
    println!("differential: {} cases agree, {} differ", tally.agree, tally.differ);
    std::process::exit(i32::from(tally.differ > 0));
}
