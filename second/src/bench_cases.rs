//! The twelve bench cases of document 01, with their whole outcomes.
//!
//! "Bytes in hex, "5·00" means five times. One word, starting at 7; P is the
//! number of processes that the rows name; "7>8" is a compare row." By change
//! request 1 "every case that starts an operation gets two more bytes there,
//! and its positions move".
//!
//! The cases are typed here and once more in the folder `bench`; both must
//! come to the same. Each is there once more as a file of version 2. So are the
//! files `advance-*` of change request 6.

use std::fs;
use std::path::PathBuf;

use crate::hex::hex;
use crate::machine::{run, Buffers};
use crate::run::print_run;

/// A row of the table: process, kind, old, new.
type CaseRow = (u8, u8, u16, u16);

/// What a value of version 2 has more than that of the table.
const MORE: u32 = 4_000_000_000;

const P0_7_TO_8: CaseRow = (0, 1, 7, 8);

struct Case {
    name: char,
    rows: &'static [CaseRow],
    /// The schedule as in the table: how many times, which byte.
    schedule: &'static [(usize, u8)],
    printed: &'static str,
    /// What the same case prints as a file of version 2, with 4,000,000,000
    /// more in every value.
    printed_2: &'static str,
}

const CASES: [Case; 12] = [
    Case {
        name: 'a',
        rows: &[P0_7_TO_8],
        schedule: &[(9, 0x00)],
        printed: "run 1 1 1 9\nword 0 8 1\nlog 6 0 0 1 0\nanswer 8 0 0 1 0\n",
        printed_2: "run 1 1 1 9\nword 0 4000000008 1\nlog 6 0 0 1 0\nanswer 8 0 0 1 0\n",
    },
    Case {
        name: 'b',
        rows: &[P0_7_TO_8, (1, 1, 7, 8)],
        schedule: &[(4, 0x00), (7, 0x01), (1, 0x10), (1, 0x20), (3, 0x00)],
        printed: "run 2 1 2 16\nword 0 8 2\nlog 10 1 1 1 0\nanswer 15 0 0 2 0\n",
        printed_2: "run 2 1 2 16\nword 0 4000000008 2\nlog 10 1 1 1 0\nanswer 15 0 0 2 0\n",
    },
    Case {
        name: 'c',
        rows: &[P0_7_TO_8],
        schedule: &[(6, 0x00), (1, 0x10), (1, 0x20), (4, 0x00)],
        printed: "run 1 1 1 12\nword 0 7 0\nanswer 11 0 0 2 0\n",
        printed_2: "run 1 1 1 12\nword 0 4000000007 0\nanswer 11 0 0 2 0\n",
    },
    Case {
        name: 'd',
        rows: &[P0_7_TO_8],
        schedule: &[(7, 0x00), (1, 0x10), (1, 0x20), (5, 0x00)],
        printed: "run 1 1 1 14\nword 0 8 1\nlog 6 0 0 1 0\nanswer 13 0 0 1 0\n",
        printed_2: "run 1 1 1 14\nword 0 4000000008 1\nlog 6 0 0 1 0\nanswer 13 0 0 1 0\n",
    },
    Case {
        name: 'e',
        rows: &[P0_7_TO_8, (1, 1, 8, 9)],
        schedule: &[(7, 0x00), (7, 0x01), (1, 0x10), (1, 0x20), (5, 0x00)],
        printed: "run 2 1 2 21\nword 0 9 3\nlog 6 0 0 1 0\nlog 13 1 1 1 0\nanswer 20 0 0 1 0\n",
        printed_2:
            "run 2 1 2 21\nword 0 4000000009 3\nlog 6 0 0 1 0\nlog 13 1 1 1 0\nanswer 20 0 0 1 0\n",
    },
    Case {
        name: 'f',
        rows: &[P0_7_TO_8, (1, 1, 7, 9)],
        schedule: &[(4, 0x00), (7, 0x01), (5, 0x00)],
        printed: "run 2 1 2 16\nword 0 9 2\nlog 10 1 1 1 0\nlog 10 0 0 0 0\nanswer 15 0 0 0 0\n",
        printed_2:
            "run 2 1 2 16\nword 0 4000000009 2\nlog 10 1 1 1 0\nlog 10 0 0 0 0\nanswer 15 0 0 0 0\n",
    },
    Case {
        name: 'g',
        rows: &[P0_7_TO_8, (1, 1, 7, 9)],
        schedule: &[
            (4, 0x00),
            (7, 0x01),
            (3, 0x00),
            (1, 0x10),
            (1, 0x20),
            (4, 0x00),
        ],
        printed: "run 2 1 2 20\nword 0 9 2\nlog 10 1 1 1 0\nanswer 19 0 0 2 0\n",
        printed_2: "run 2 1 2 20\nword 0 4000000009 2\nlog 10 1 1 1 0\nanswer 19 0 0 2 0\n",
    },
    Case {
        name: 'h',
        rows: &[(0, 0, 0, 0)],
        schedule: &[(6, 0x00)],
        printed: "run 1 1 1 6\nword 0 7 0\nlog 3 0 0 3 7\nanswer 5 0 0 3 7\n",
        printed_2:
            "run 1 1 1 6\nword 0 4000000007 0\nlog 3 0 0 3 4000000007\nanswer 5 0 0 3 4000000007\n",
    },
    Case {
        name: 'i',
        rows: &[(0, 1, 5, 6)],
        schedule: &[(6, 0x00)],
        printed: "run 1 1 1 6\nword 0 7 0\nlog 3 0 0 0 0\nanswer 5 0 0 0 0\n",
        printed_2: "run 1 1 1 6\nword 0 4000000007 0\nlog 3 0 0 0 0\nanswer 5 0 0 0 0\n",
    },
    Case {
        name: 'j',
        rows: &[P0_7_TO_8],
        schedule: &[(1, 0xF0), (1, 0x00), (1, 0x20), (3, 0x00)],
        printed: "run 1 1 1 6\nword 0 7 0\n",
        printed_2: "run 1 1 1 6\nword 0 4000000007 0\n",
    },
    Case {
        name: 'k',
        rows: &[P0_7_TO_8],
        schedule: &[
            (7, 0x00),
            (1, 0x10),
            (1, 0x20),
            (4, 0x00),
            (1, 0x10),
            (1, 0x20),
            (2, 0x00),
        ],
        printed: "run 1 1 1 17\nword 0 8 1\nlog 6 0 0 1 0\nanswer 16 0 0 1 0\n",
        printed_2: "run 1 1 1 17\nword 0 4000000008 1\nlog 6 0 0 1 0\nanswer 16 0 0 1 0\n",
    },
    Case {
        name: 'l',
        rows: &[(0, 1, 7, 7)],
        schedule: &[],
        printed: "refused 11 15\n",
        printed_2: "refused 11 19\n",
    },
];

impl Case {
    fn header(&self, version: u8) -> Vec<u8> {
        let processes = self.rows.last().map_or(0, |row| row.0 + 1);
        let rows = self.rows.len() as u8;
        let length: usize = self.schedule.iter().map(|(times, _)| times).sum();
        let mut file = b"SWR".to_vec();
        file.extend([version, 0, processes, 1, rows, 0, length as u8, 0]);
        file
    }

    fn schedule(&self) -> Vec<u8> {
        let bytes = self.schedule.iter();
        bytes
            .flat_map(|(times, byte)| vec![*byte; *times])
            .collect()
    }

    fn file(&self) -> Vec<u8> {
        let mut file = self.header(1);
        file.extend([7, 0, 0, 0]);
        for (process, kind, old, new) in self.rows {
            file.extend([*process, *kind, 0, 0]);
            file.extend(old.to_le_bytes());
            file.extend(new.to_le_bytes());
        }
        file.extend(self.schedule());
        file
    }

    /// The case as a file of version 2. A read still has no old and no new.
    fn file_2(&self) -> Vec<u8> {
        let mut file = self.header(2);
        file.extend(u64::from(MORE + 7).to_le_bytes());
        for (process, kind, old, new) in self.rows {
            file.extend([*process, *kind, 0, 0]);
            for value in [*old, *new] {
                let more = if *kind == 1 { MORE } else { 0 };
                file.extend((more + u32::from(value)).to_le_bytes());
            }
        }
        file.extend(self.schedule());
        file
    }
}

fn printed(file: &[u8]) -> String {
    let mut printed = Vec::new();
    print_run(file, &mut printed).unwrap();
    String::from_utf8(printed).unwrap()
}

#[test]
fn the_twelve_bench_cases_print_their_whole_outcomes() {
    for case in &CASES {
        assert_eq!(printed(&case.file()), case.printed, "case {}", case.name);
    }
}

#[test]
fn the_twelve_bench_cases_print_their_whole_outcomes_in_version_2() {
    for case in &CASES {
        let (name, file) = (case.name, case.file_2());
        assert_eq!(printed(&file), case.printed_2, "case {name}2");
    }
}

/// "in the bench cases' final words the flip bits move to bit 32 up" (change
/// request 5): the table's word 65,544, that is 8 and bit 16, and so on.
#[test]
fn the_final_words_of_the_table_in_64_bits() {
    let words = [
        (0, 65_544),
        (1, 131_080),
        (2, 7),
        (3, 65_544),
        (4, 196_617),
        (5, 131_081),
        (6, 131_081),
        (7, 7),
        (8, 7),
        (9, 7),
        (10, 65_544),
    ];
    for (case, word) in words {
        let (value, flips) = (word % 65_536, word / 65_536);
        let wide = flips * 4_294_967_296 + value;
        for (file, more) in [(CASES[case].file(), 0), (CASES[case].file_2(), MORE)] {
            let mut buffers = Buffers {
                words: vec![0],
                log: vec![0; 200],
                answers: vec![0; 200],
            };
            assert!(run(&file, &mut buffers).is_ok());
            assert_eq!(buffers.words, [wide + u64::from(more)]);
        }
    }
}

/// "The file for f", as document 01 gives it, with S 16 and two more bytes at
/// each start.
#[test]
fn the_file_for_f_is_the_one_given() {
    let given = "53 57 52 01 00 02 01 02 00 10 00 07 00 00 00 00 01 00 00 07 00 08 00 \
                 01 01 00 00 07 00 09 00 00 00 00 00 01 01 01 01 01 01 01 00 00 00 00 00";
    assert_eq!(hex(&CASES[5].file()), given);
}

/// A file of the folder `bench`.
fn in_bench(name: &str) -> String {
    let mut path = PathBuf::from(env!("CARGO_MANIFEST_DIR"));
    path.extend(["..", "bench", name]);
    fs::read_to_string(&path).unwrap_or_else(|error| panic!("{}: {error}", path.display()))
}

/// The bytes of a file of `bench` that is typed in hex, in the form of [`hex`].
fn bytes_in_bench(name: &str) -> String {
    let text = in_bench(name);
    let lines = text.lines().map(|line| line.split('#').next());
    let bytes = lines.flat_map(|line| line.unwrap_or("").split_whitespace());
    bytes.collect::<Vec<&str>>().join(" ")
}

/// A valid file of two processes, two words, four rows and nine steps; the
/// rows begin at 19, 27, 35 and 43.
const FOUR_ROWS: [u8; 60] = [
    0x53, 0x57, 0x52, 1, 0, 2, 2, 4, 0, 9, 0, // header
    7, 0, 0, 0, 9, 0, 0, 0, // words
    0, 1, 0, 0, 7, 0, 8, 0, // p0, word 0, 7>8
    0, 0, 1, 0, 0, 0, 0, 0, // p0 reads word 1
    1, 1, 1, 0, 9, 0, 7, 0, // p1, word 1, 9>7
    1, 0, 0, 0, 0, 0, 0, 0, // p1 reads word 0
    0, 0, 0, 0, 0, 0, 0, 0, 0, // schedule
];

/// The six files `field-1` to `field-6` of the folder `bench`: which byte is
/// the slip, what it is, and the place of its field.
const SLIPS: [(usize, u8, usize); 6] = [
    (35, 2, 35),
    (36, 2, 36),
    (37, 2, 37),
    (38, 1, 38),
    (31, 9, 31),
    (50, 1, 49),
];

/// "9 now gives the place of that field's first byte" (change request 2).
#[test]
fn one_slip_in_each_field_of_a_row() {
    assert!(printed(&FOUR_ROWS).starts_with("run 2 2 4 9\n"));
    for (number, (at, byte, place)) in (1..).zip(SLIPS) {
        let mut file = FOUR_ROWS;
        file[at] = byte;
        let refused = format!("refused 9 {place}\n");
        assert_eq!(printed(&file), refused, "field-{number}");
        assert_eq!(bytes_in_bench(&format!("field-{number}.hex")), hex(&file));
        assert_eq!(in_bench(&format!("field-{number}.out")), refused);
    }
}

/// The same as a file of version 2, with 4,000,000,000 more in every value;
/// the rows begin at 27, 39, 51 and 63.
const FOUR_ROWS_2: [u8; 84] = [
    0x53, 0x57, 0x52, 2, 0, 2, 2, 4, 0, 9, 0, // header
    0x07, 0x28, 0x6B, 0xEE, 0, 0, 0, 0, // word 0
    0x09, 0x28, 0x6B, 0xEE, 0, 0, 0, 0, // word 1
    0, 1, 0, 0, 0x07, 0x28, 0x6B, 0xEE, 0x08, 0x28, 0x6B, 0xEE, // p0, word 0
    0, 0, 1, 0, 0, 0, 0, 0, 0, 0, 0, 0, // p0 reads word 1
    1, 1, 1, 0, 0x09, 0x28, 0x6B, 0xEE, 0x07, 0x28, 0x6B, 0xEE, // p1, word 1
    1, 0, 0, 0, 0, 0, 0, 0, 0, 0, 0, 0, // p1 reads word 0
    0, 0, 0, 0, 0, 0, 0, 0, 0, // schedule
];

/// The six files `field2-1` to `field2-6`.
const SLIPS_2: [(usize, u8, usize); 6] = [
    (51, 2, 51),
    (52, 3, 52),
    (53, 2, 53),
    (54, 1, 54),
    (45, 1, 43),
    (74, 1, 71),
];

#[test]
fn one_slip_in_each_field_of_a_row_of_version_2() {
    assert!(printed(&FOUR_ROWS_2).starts_with("run 2 2 4 9\nword 0 4000000008 1\n"));
    for (number, (at, byte, place)) in (1..).zip(SLIPS_2) {
        let mut file = FOUR_ROWS_2;
        file[at] = byte;
        let refused = format!("refused 9 {place}\n");
        assert_eq!(printed(&file), refused, "field2-{number}");
        assert_eq!(bytes_in_bench(&format!("field2-{number}.hex")), hex(&file));
        assert_eq!(in_bench(&format!("field2-{number}.out")), refused);
    }
}

/// A file of version 2 with one word and advances.
struct AdvanceCase {
    name: &'static str,
    mark: u32,
    /// Process, old and amount of each row.
    rows: &'static [(u8, u32, u32)],
    schedule: &'static [(usize, u8)],
    printed: &'static str,
}

const ADVANCE_CASES: [AdvanceCase; 8] = [
    AdvanceCase {
        name: "alone",
        mark: 1_907_385_120,
        rows: &[(0, 0, 1_460)],
        schedule: &[(9, 0x00)],
        printed: "run 1 1 1 9\nword 0 1907386580 1\nlog 6 0 0 4 1907385120\n\
                  answer 8 0 0 4 1907385120\n",
    },
    AdvanceCase {
        name: "loses-once",
        mark: 2_862_404_773,
        rows: &[(0, 0, 1_460), (1, 0, 536)],
        schedule: &[(4, 0x00), (7, 0x01), (3, 0x00), (6, 0x00), (2, 0x01)],
        printed: "run 2 1 2 22\nword 0 2862406769 3\nlog 10 1 1 4 2862404773\n\
                  log 17 0 0 4 2862405309\nanswer 19 0 0 4 2862405309\n\
                  answer 21 1 1 4 2862404773\n",
    },
    AdvanceCase {
        name: "recovered",
        mark: 3_318_051_694,
        rows: &[(0, 0, 1_460), (1, 0, 2_920)],
        schedule: &[(7, 0x00), (1, 0x10), (9, 0x01), (1, 0x20), (5, 0x00)],
        printed: "run 2 1 2 23\nword 0 3318056074 3\nlog 6 0 0 4 3318051694\n\
                  log 14 1 1 4 3318053154\nanswer 16 1 1 4 3318053154\n\
                  answer 22 0 0 4 3318051694\n",
    },
    AdvanceCase {
        name: "told-fail",
        mark: 746_920_385,
        rows: &[(0, 0, 536), (1, 0, 1_460)],
        schedule: &[
            (4, 0x00),
            (7, 0x01),
            (3, 0x00),
            (1, 0x10),
            (1, 0x20),
            (4, 0x00),
            (2, 0x01),
        ],
        printed: "run 2 1 2 22\nword 0 746921845 2\nlog 10 1 1 4 746920385\n\
                  answer 19 0 0 2 0\nanswer 21 1 1 4 746920385\n",
    },
    AdvanceCase {
        name: "wraps",
        mark: 4_294_966_296,
        rows: &[(0, 0, 1_460), (0, 0, 1_460)],
        schedule: &[(18, 0x00)],
        printed: "run 1 1 2 18\nword 0 1920 0\nlog 6 0 0 4 4294966296\nlog 15 0 1 4 460\n\
                  answer 8 0 0 4 4294966296\nanswer 17 0 1 4 460\n",
    },
    AdvanceCase {
        name: "capture",
        mark: 4_019_873_250,
        rows: &[(0, 0, 1_460), (0, 0, 1_460), (1, 0, 1_460)],
        schedule: &[(6, 0x00), (1, 0x10), (9, 0x01), (1, 0x20), (13, 0x00)],
        printed: "run 2 1 3 30\nword 0 4019876170 3\nlog 13 1 2 4 4019873250\n\
                  log 27 0 1 4 4019874710\nanswer 15 1 2 4 4019873250\n\
                  answer 20 0 0 2 0\nanswer 29 0 1 4 4019874710\n",
    },
    AdvanceCase {
        name: "field-old",
        mark: 1_907_385_120,
        rows: &[(0, 0, 1_460), (0, 1_907_386_580, 1_460)],
        schedule: &[(9, 0x00)],
        printed: "refused 9 35\n",
    },
    AdvanceCase {
        name: "amount-0",
        mark: 1_907_385_120,
        rows: &[(0, 0, 1_460), (0, 0, 0)],
        schedule: &[(9, 0x00)],
        printed: "refused 11 31\n",
    },
];

impl AdvanceCase {
    fn file(&self) -> Vec<u8> {
        let bytes = self.schedule.iter();
        let schedule: Vec<u8> = bytes
            .flat_map(|(times, byte)| vec![*byte; *times])
            .collect();
        let processes = self.rows.last().map_or(0, |row| row.0 + 1);
        let (rows, length) = (self.rows.len() as u8, schedule.len() as u8);
        let mut file = b"SWR".to_vec();
        file.extend([2, 0, processes, 1, rows, 0, length, 0]);
        file.extend(u64::from(self.mark).to_le_bytes());
        for (process, old, amount) in self.rows {
            file.extend([*process, 2, 0, 0]);
            file.extend(old.to_le_bytes());
            file.extend(amount.to_le_bytes());
        }
        file.extend(schedule);
        file
    }
}

#[test]
fn the_files_of_advances_print_their_whole_outcomes() {
    for case in &ADVANCE_CASES {
        let (name, file) = (format!("advance-{}", case.name), case.file());
        assert_eq!(printed(&file), case.printed, "{name}");
        assert_eq!(bytes_in_bench(&format!("{name}.hex")), hex(&file), "{name}");
        assert_eq!(in_bench(&format!("{name}.out")), case.printed, "{name}");
    }
}

/// No file of the folder `bench` is left out here.
#[test]
fn every_file_in_the_folder_bench_is_held() {
    let mut path = PathBuf::from(env!("CARGO_MANIFEST_DIR"));
    path.extend(["..", "bench"]);
    let names = fs::read_dir(&path).expect("the folder bench");
    let names = names.map(|entry| entry.expect("an entry").file_name());
    let names: Vec<String> = names.filter_map(|name| name.into_string().ok()).collect();
    let of_sort = |end: &str| names.iter().filter(|name| name.ends_with(end)).count();
    let held = 2 * CASES.len() + SLIPS.len() + SLIPS_2.len() + ADVANCE_CASES.len();
    assert_eq!((of_sort(".hex"), of_sort(".out")), (held, held));
}

#[test]
fn the_cases_in_the_folder_bench_are_these() {
    for case in &CASES {
        let name = case.name;
        assert_eq!(bytes_in_bench(&format!("{name}.hex")), hex(&case.file()));
        assert_eq!(in_bench(&format!("{name}.out")), case.printed);
        let typed = bytes_in_bench(&format!("{name}2.hex"));
        assert_eq!(typed, hex(&case.file_2()));
        assert_eq!(in_bench(&format!("{name}2.out")), case.printed_2);
    }
}
