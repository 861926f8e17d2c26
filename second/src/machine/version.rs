//! The two versions of the run file. All in which they differ stands here:
//! sizes, offsets, the longest file, how words and rows are read, and whether
//! a row may be an advance.
//!
//! "Version 1 files still run, widened as they are read" (change request 5):
//! behind this file there are only values of 32 bits.

use crate::pieces::pieces;

use super::row::{Field, WrittenRow};
use super::word::Word;

/// "Three bytes `SWR`; a 16-bit version ...; process count P (1 byte); word
/// count W (1 byte); row count (2 bytes); schedule length S (2 bytes)."
const HEADER_BYTES: usize = 11;

/// "P and W are 1 to 16, rows 0 to 512, S 0 to 1,024."
pub const MOST_PROCESSES: usize = 16;
pub const MOST_WORDS: usize = 16;
pub const MOST_ROWS: usize = 512;
pub const LONGEST_SCHEDULE: usize = 1024;

#[derive(Clone, Copy, Debug, PartialEq, Eq)]
pub enum Version {
    One,
    Two,
}

impl Version {
    /// Refusal 3 "now means a version that is neither 1 nor 2".
    pub fn numbered(number: u16) -> Option<Version> {
        match number {
            1 => Some(Version::One),
            2 => Some(Version::Two),
            _ => None,
        }
    }

    pub fn number(self) -> u16 {
        match self {
            Version::One => 1,
            Version::Two => 2,
        }
    }

    /// "New kind 2 in version 2 files" (change request 6).
    pub fn has_advances(self) -> bool {
        self == Version::Two
    }

    /// The bytes of a value, and of the flip bits beside it.
    fn value_bytes(self) -> usize {
        match self {
            Version::One => 2,
            Version::Two => 4,
        }
    }

    /// "W words of 4 bytes"; in version 2 "words of 8 bytes".
    pub fn word_bytes(self) -> usize {
        2 * self.value_bytes()
    }

    /// "the operation rows of 8 bytes"; in version 2 "rows of 12 bytes".
    pub fn row_bytes(self) -> usize {
        self.offset(Field::New) + self.value_bytes()
    }

    /// Where a field's first byte stands in its row. "A row: process, kind,
    /// word, a zero byte, then old and new (2 bytes each)"; in version 2 "old
    /// and new of 4 bytes each".
    pub fn offset(self, field: Field) -> usize {
        match field {
            Field::Process => 0,
            Field::Kind => 1,
            Field::Word => 2,
            Field::Zero => 3,
            Field::Old => 4,
            Field::New => 4 + self.value_bytes(),
        }
    }

    /// The place of a row, by its number, in a file of so many words; also
    /// that of the schedule, which begins where one more row would.
    pub fn row_place(self, words: usize, number: usize) -> usize {
        HEADER_BYTES + self.word_bytes() * words + self.row_bytes() * number
    }

    /// "The longest file has 5,195 bytes"; of version 2 it has 7,307.
    pub fn longest_file(self) -> usize {
        self.row_place(MOST_WORDS, MOST_ROWS) + LONGEST_SCHEDULE
    }

    /// The words of a file, from their bytes. "Any start word is allowed".
    pub fn words(self, bytes: &[u8]) -> Vec<Word> {
        match self {
            Version::One => pieces(bytes)
                .map(|word| Word::widened(u32::from_le_bytes(word)))
                .collect(),
            Version::Two => pieces(bytes)
                .map(|word| Word::from_number(u64::from_le_bytes(word)))
                .collect(),
        }
    }

    /// The rows of a file, from their bytes, in 32 bits, and what is made of
    /// each.
    pub fn rows<T>(self, bytes: &[u8], make: impl Fn(WrittenRow) -> T) -> Vec<T> {
        match self {
            Version::One => pieces(bytes).map(row_of_8_bytes).map(make).collect(),
            Version::Two => pieces(bytes).map(row_of_12_bytes).map(make).collect(),
        }
    }
}

fn row_of_8_bytes([process, kind, word, zero, o0, o1, n0, n1]: [u8; 8]) -> WrittenRow {
    WrittenRow {
        process,
        kind,
        word,
        zero,
        old: u16::from_le_bytes([o0, o1]).into(),
        new: u16::from_le_bytes([n0, n1]).into(),
    }
}

fn row_of_12_bytes(row: [u8; 12]) -> WrittenRow {
    let [process, kind, word, zero, o0, o1, o2, o3, n0, n1, n2, n3] = row;
    WrittenRow {
        process,
        kind,
        word,
        zero,
        old: u32::from_le_bytes([o0, o1, o2, o3]),
        new: u32::from_le_bytes([n0, n1, n2, n3]),
    }
}

#[cfg(test)]
mod tests {
    use super::*;

    const FIELDS: [Field; 6] = [
        Field::Process,
        Field::Kind,
        Field::Word,
        Field::Zero,
        Field::Old,
        Field::New,
    ];

    #[test]
    fn sizes_and_offsets_of_both_versions() {
        let told = |version: Version| {
            let sizes = (version.word_bytes(), version.row_bytes());
            (
                sizes,
                FIELDS.map(|field| version.offset(field)),
                version.longest_file(),
            )
        };
        assert_eq!(told(Version::One), ((4, 8), [0, 1, 2, 3, 4, 6], 5_195));
        assert_eq!(told(Version::Two), ((8, 12), [0, 1, 2, 3, 4, 8], 7_307));
    }

    #[test]
    fn the_first_row_stands_behind_header_and_words() {
        assert_eq!(Version::One.row_place(1, 0), 15);
        assert_eq!(Version::Two.row_place(1, 0), 19);
        assert_eq!(Version::One.row_place(2, 3), 43);
        assert_eq!(Version::Two.row_place(2, 3), 63);
    }

    #[test]
    fn versions_but_1_and_2_are_none() {
        for number in 0..=u16::MAX {
            let version = Version::numbered(number);
            assert_eq!(version.is_some(), number == 1 || number == 2);
            assert!(version.is_none_or(|version| version.number() == number));
        }
    }

    /// A byte of a row changes the field that begins at or before it, and no
    /// other; so the offsets are those by which rows are read.
    #[test]
    fn rows_are_read_by_their_offsets() {
        for version in [Version::One, Version::Two] {
            for at in 0..version.row_bytes() {
                let mut bytes = vec![0; version.row_bytes()];
                bytes[at] = 0xA7;
                let [row] = version.rows(&bytes, |row| row)[..] else {
                    panic!("one row");
                };
                let numbers = [
                    row.process.into(),
                    row.kind.into(),
                    row.word.into(),
                    row.zero.into(),
                    row.old,
                    row.new,
                ];
                let begins = |field: &Field| version.offset(*field) <= at;
                let own = FIELDS.iter().filter(|field| begins(field)).count() - 1;
                let mut expected = [0; 6];
                expected[own] = 0xA7 << (8 * (at - version.offset(FIELDS[own])));
                assert_eq!(numbers, expected);
            }
        }
    }

    /// The value as it was; every bit from 16 up goes to 32 up, whether its
    /// process is there or not.
    #[test]
    fn words_of_version_1_are_widened() {
        let widened = |word: u32| {
            let [word] = Version::One.words(&word.to_le_bytes())[..] else {
                panic!("one word");
            };
            word.number()
        };
        assert_eq!(widened(7), 7);
        assert_eq!(widened(0xFFFF), 0xFFFF);
        assert_eq!(widened(0x8001_FFFE), 0x0000_8001_0000_FFFE);
        assert_eq!(widened(u32::MAX), 0x0000_FFFF_0000_FFFF);
        for process in 0..16 {
            assert_eq!(widened(1 << (16 + process)), 1 << (32 + process));
        }
    }

    #[test]
    fn words_of_version_2_are_taken_whole() {
        for bit in 0..64 {
            let word = 1u64 << bit;
            let read = Version::Two.words(&word.to_le_bytes());
            assert_eq!(read.len(), 1);
            assert_eq!(read[0].number(), word);
            let flips = (32..48).map(|flip| flip == bit);
            assert!((0..16).map(|process| read[0].flip_bit(process)).eq(flips));
        }
    }
}
