//! The rows of the log and of the answers, and the log's order.

use std::collections::BTreeMap;
use std::ops::Bound::{Excluded, Unbounded};

/// "Verdicts: 0 false, 1 true, 2 fail (answers only), 3 value read." Of an
/// advance "The answer is the value before, verdict 4 with that value" (change
/// request 6).
#[derive(Clone, Copy, Debug, PartialEq, Eq)]
pub enum Verdict {
    False,
    True,
    Fail,
    ValueRead(u32),
    ValueBefore(u32),
}

impl Verdict {
    /// Whether a log row of this verdict is one of a successful swap: also the
    /// swap of an advance "is a successful swap for others' lost ones".
    fn is_of_a_swap(self) -> bool {
        matches!(self, Verdict::True | Verdict::ValueBefore(_))
    }

    /// The verdict's number and the value beside it: "The value is 0 unless
    /// the verdict is 3", or 4.
    fn numbers(self) -> (u32, u32) {
        match self {
            Verdict::False => (0, 0),
            Verdict::True => (1, 0),
            Verdict::Fail => (2, 0),
            Verdict::ValueRead(value) => (3, value),
            Verdict::ValueBefore(value) => (4, value),
        }
    }
}

/// One row of the log or of the answers.
#[derive(Clone, Copy, Debug, PartialEq, Eq)]
pub struct Entry {
    pub position: u32,
    pub process: usize,
    pub row: usize,
    pub verdict: Verdict,
}

impl Entry {
    /// "Both have rows of five numbers: position, process, row number,
    /// verdict, value."
    pub fn numbers(&self) -> [u32; 5] {
        let (verdict, value) = self.verdict.numbers();
        [
            self.position,
            self.process as u32,
            self.row as u32,
            verdict,
            value,
        ]
    }
}

/// The log. "A new log row goes directly behind the last row of equal or
/// smaller position, or to the front if there is none".
///
/// So the log is always in order of position, and rows of one position are in
/// order of arrival. That pair is therefore the key under which a row is kept,
/// and nothing ever has to be moved.
#[derive(Debug, Default)]
pub struct Log {
    entries: BTreeMap<Place, Entry>,
}

#[derive(Clone, Copy, Debug, PartialEq, Eq, PartialOrd, Ord)]
struct Place {
    position: u32,
    arrival: usize,
}

impl Log {
    pub fn add(&mut self, entry: Entry) {
        let place = Place {
            position: entry.position,
            arrival: self.entries.len(),
        };
        self.entries.insert(place, entry);
    }

    /// "the front-most log row of a successful swap whose position is larger
    /// than its A1's and whose row number names a row on the same word": its
    /// position. `on_word` tells whether a row number names such a row.
    pub fn first_swap_after(&self, a1: u32, on_word: impl Fn(usize) -> bool) -> Option<u32> {
        let last_of_a1 = Place {
            position: a1,
            arrival: usize::MAX,
        };
        self.entries
            .range((Excluded(last_of_a1), Unbounded))
            .map(|(_, entry)| entry)
            .find(|entry| entry.verdict.is_of_a_swap() && on_word(entry.row))
            .map(|entry| entry.position)
    }

    pub fn into_entries(self) -> Vec<Entry> {
        self.entries.into_values().collect()
    }
}

#[cfg(test)]
mod tests {
    use super::*;

    fn entry(position: u32, row: usize, verdict: Verdict) -> Entry {
        Entry {
            position,
            process: 0,
            row,
            verdict,
        }
    }

    fn rows(log: Log) -> Vec<usize> {
        log.into_entries().iter().map(|entry| entry.row).collect()
    }

    #[test]
    fn a_row_goes_behind_the_last_of_equal_or_smaller_position() {
        let mut log = Log::default();
        for (row, position) in [5, 9, 5, 1, 9, 7].into_iter().enumerate() {
            log.add(entry(position, row, Verdict::False));
        }
        assert_eq!(rows(log), [3, 0, 2, 5, 1, 4]);
    }

    #[test]
    fn a_lost_swap_looks_only_behind_its_a1() {
        let mut log = Log::default();
        log.add(entry(4, 0, Verdict::True));
        log.add(entry(6, 1, Verdict::False));
        log.add(entry(8, 2, Verdict::True));
        log.add(entry(9, 3, Verdict::True));
        assert_eq!(log.first_swap_after(3, |_| true), Some(4));
        assert_eq!(log.first_swap_after(4, |_| true), Some(8));
        assert_eq!(log.first_swap_after(4, |row| row == 3), Some(9));
        assert_eq!(log.first_swap_after(9, |_| true), None);
    }

    #[test]
    fn a_lost_swap_may_have_lost_to_an_advance() {
        let mut log = Log::default();
        log.add(entry(6, 0, Verdict::ValueRead(7)));
        log.add(entry(8, 1, Verdict::ValueBefore(7)));
        log.add(entry(9, 2, Verdict::True));
        assert_eq!(log.first_swap_after(3, |_| true), Some(8));
        assert_eq!(log.first_swap_after(8, |_| true), Some(9));
        assert_eq!(log.first_swap_after(3, |row| row == 2), Some(9));
    }
}
