//! Makes up lists of calls. A seed fixes them all.

use crate::author::Author;
use crate::calls::{Answer, Call};
use crate::desk::Desk;
use crate::random::Random;
use crate::store::Placement;
use crate::themes::THEMES;

pub fn lists(seed: u64, count: usize) -> String {
    (0..count).map(|number| list_text(number, &list(seed, number))).collect()
}

fn list_text(number: usize, calls: &[Call]) -> String {
    let lines: String = calls.iter().map(|call| format!("{call}\n")).collect();
    format!("list {number}\n{lines}")
}

fn list(seed: u64, number: usize) -> Vec<Call> {
    let theme = THEMES[number % THEMES.len()];
    let mut seeds = Random::new(seed.wrapping_add((number as u64) << 32));
    loop {
        let mut author = Author::new(Random::new(seeds.next()));
        theme(&mut author);
        let calls = author.into_calls();
        if is_free_of_placement(&calls) {
            return calls;
        }
    }
}

/// Where in a span a segment lies is left to the store. A list is of use only if no answer hangs on it.
fn is_free_of_placement(calls: &[Call]) -> bool {
    let answers = Placement::ALL.map(|placement| answers(calls, placement));
    answers.iter().all(|other| *other == answers[0])
}

/// Under another placement an allocation may be denied, and then later calls cannot be made: no answers at all.
fn answers(calls: &[Call], placement: Placement) -> Option<Vec<Answer>> {
    let mut desk = Desk::new(placement);
    calls.iter().map(|call| desk.perform(call).ok()).collect()
}
