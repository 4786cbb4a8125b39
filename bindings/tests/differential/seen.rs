//! What the calls of the scenes gave.

use std::collections::BTreeMap;

/// The numbers published so far are 0 to 23.
pub const NUMBERS: usize = 24;

/// The answers that runs wrote, counted beside the calls.
pub const ANSWER: &str = "answer in a run";

/// The plans that were answered 0 or 23.
#[derive(Default)]
pub struct Plans {
    /// How many have no order and how many have one, on what a list from blank
    /// left, and elsewhere.
    pub after_lists: [usize; 2],
    pub elsewhere: [usize; 2],
    /// How many have a step, and of those with an order how many are not granted
    /// in the order of the list, and how many have more than six jobs.
    pub with_step: usize,
    pub not_their_own: usize,
    pub long: usize,
}

#[derive(Default)]
pub struct Seen {
    /// How often each call gave each number, and each answer in a run was.
    pub calls: BTreeMap<&'static str, [usize; NUMBERS]>,
    /// How many scenes of good books ended on levels of declared persons that
    /// the history does not give, and how many on those that it gives.
    pub levels: [usize; 2],
    pub plans: Plans,
}

impl Seen {
    pub fn count(&mut self, call: &'static str, number: u8) {
        self.calls.entry(call).or_default()[usize::from(number)] += 1;
    }

    /// How often some call gave each number as its own.
    pub fn own_numbers(&self) -> [usize; NUMBERS] {
        let mut numbers = [0; NUMBERS];
        for (call, counts) in &self.calls {
            if *call != ANSWER {
                (0..NUMBERS).for_each(|number| numbers[number] += counts[number]);
            }
        }
        numbers
    }
}
