//! How often each call answered each number.

use crate::{both_ways, Call, CALLS};
use std::collections::BTreeMap;

#[derive(Default)]
pub struct Tally {
    answers: BTreeMap<(&'static str, usize), u64>,
}

impl Tally {
    pub fn add(&mut self, call: &'static str, number: usize) {
        *self.answers.entry((call, number)).or_default() += 1;
    }

    pub fn of(&self, call: &'static str, number: usize) -> u64 {
        self.answers.get(&(call, number)).copied().unwrap_or(0)
    }

    /// The counts, a line for each call and one for the pictures asked for both ways.
    pub fn text(&self) -> String {
        let line = |name| {
            let counts = self.answers.iter().filter(|((call, _), _)| *call == name);
            let words: Vec<String> = counts.map(|((_, number), count)| format!("{number}:{count}")).collect();
            format!("{name}: {}\n", words.join(" "))
        };
        CALLS.iter().map(|call| call.name).chain([both_ways::WHAT]).map(line).collect()
    }

    /// Numbers that a call can answer, and answered a hundred times or less; of those that need a
    /// file of 16 MiB, never.
    pub fn rare(&self) -> Vec<String> {
        let numbers =
            |call: &'static Call| call.numbers.concat().into_iter().map(|number| (call.name, number));
        let is_rare = |(name, number): &(&'static str, usize)| self.of(name, *number) <= enough(*number);
        let rare = CALLS.iter().flat_map(numbers).filter(is_rare);
        rare.map(|(name, number)| format!("{name} {number}")).collect()
    }
}

/// How often a number is not yet met often enough.
fn enough(number: usize) -> u64 {
    match number {
        1 | 35 => 0,
        _ => 100,
    }
}
