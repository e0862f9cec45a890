//! Each question at its bound and one past it.
use crate::Tally;
use differential::bounds::bounds;
use differential::panel::{Call, Panel};

pub fn run(tally: &mut Tally) {
    for bound in bounds() {
        let name = format!("question {}", bound.question);
        let answer = format!("{:?} and {:?}", numbers(&bound.within), numbers(&bound.past));
        let expected = format!("[{}] and [{}]", bound.otherwise, bound.question);
        tally.case(&name, &bound.what, &answer, &expected);
    }
}

/// The numbers of the last calls, each once.
fn numbers(lists: &[Vec<Call>]) -> Vec<u8> {
    let last = |calls: &Vec<Call>| {
        let mut panel = Panel::default();
        let numbers = calls.iter().map(|call| panel.run(call).expect("an answer").number());
        numbers.last().expect("a call")
    };
    let mut numbers: Vec<u8> = lists.iter().map(last).collect();
    numbers.dedup();
    numbers
}
