//! The successful swaps in the log, by word and by row.

use std::collections::HashMap;

use super::demands::{is_swap, named_row};
use super::given::Given;
use super::outcome::{Five, Ran};

pub struct Swaps<'r> {
    /// Of each word, in the order of the log.
    on_word: HashMap<usize, Vec<&'r Five>>,
    /// Where each row that has swapped did so.
    position: HashMap<usize, u64>,
}

impl<'r> Swaps<'r> {
    /// The log's positions must never decrease.
    pub fn of(given: &Given, ran: &'r Ran) -> Swaps<'r> {
        let mut swaps = Swaps {
            on_word: HashMap::new(),
            position: HashMap::new(),
        };
        for five in ran.log.iter().filter(|five| is_swap(five)) {
            if let Ok(row) = named_row(given, five) {
                swaps.on_word.entry(row.word).or_default().push(five);
                swaps.position.insert(five.row, five.position);
            }
        }
        swaps
    }

    pub fn is_at(&self, row: usize, position: u64) -> bool {
        self.position.get(&row) == Some(&position)
    }

    /// The first swap of another process on that word between two positions.
    pub fn of_another_between(
        &self,
        word: usize,
        process: u64,
        after: u64,
        before: u64,
    ) -> Option<&'r Five> {
        let swaps = self.on_word.get(&word)?;
        let behind = swaps.partition_point(|five| five.position <= after);
        let mut between = swaps[behind..]
            .iter()
            .take_while(|five| five.position < before);
        between.find(|five| five.process != process).copied()
    }
}
