//! Change request 5: files of version 2, with their refusals and places, and
//! all 64 bits of a word in a run.

use super::{run, Buffers, Version};

/// Two processes, two words, three rows, four schedule bytes: the rows begin
/// at 27, 39 and 51, the schedule at 63, and the file has 67 bytes.
const FILE: [u8; 67] = [
    0x53, 0x57, 0x52, 2, 0, 2, 2, 3, 0, 4, 0, // header
    7, 0, 0, 0x80, 0, 0, 0, 0, // word 0: 2,147,483,655
    9, 0, 1, 0, 1, 0, 0, 0x80, // word 1: 65,545, bits 32 and 63
    0, 1, 0, 0, 7, 0, 0, 0x80, 7, 0, 1, 0x80, // p0, word 0: to 65,536 more
    0, 0, 1, 0, 0, 0, 0, 0, 0, 0, 0, 0, // p0 reads word 1
    1, 1, 1, 0, 9, 0, 1, 0, 9, 0, 2, 0, // p1, word 1: to 65,536 more
    0, 0x10, 0x20, 0xF0, // schedule
];

fn lent() -> Buffers {
    Buffers {
        words: vec![11; 16],
        log: vec![12; 5120],
        answers: vec![13; 5120],
    }
}

/// Number and place of the refusal of a file; the buffers are untouched.
fn refused(file: &[u8]) -> Option<(u32, usize)> {
    let mut buffers = lent();
    let refusal = run(file, &mut buffers).err()?;
    assert_eq!(buffers, lent());
    Some((refusal.number(), refusal.place))
}

/// The file with some bytes changed.
fn with(changes: &[(usize, u8)]) -> Vec<u8> {
    let mut file = FILE.to_vec();
    for (at, byte) in changes {
        file[*at] = *byte;
    }
    file
}

#[test]
fn the_file_is_refused_at_every_other_length() {
    assert_eq!(refused(&FILE), None);
    for length in 0..67 {
        let number = if length < 11 { 1 } else { 8 };
        assert_eq!(refused(&FILE[..length]), Some((number, 0)));
    }
    assert_eq!(refused(&[&FILE[..], &[0]].concat()), Some((8, 0)));
    // A file of version 1 would be shorter.
    assert_eq!(refused(&with(&[(3, 1)])), Some((8, 0)));
    for (low, high) in [(0, 0), (3, 0), (2, 1), (0, 2), (2, 2), (255, 255)] {
        assert_eq!(refused(&with(&[(3, low), (4, high)])), Some((3, 0)));
    }
}

#[test]
fn refusal_9_for_every_byte_of_a_row() {
    for row in [27, 39, 51] {
        for (offset, byte) in [(0, 2), (1, 3), (1, 255), (2, 2), (3, 1), (3, 255)] {
            let place = row + offset;
            assert_eq!(refused(&with(&[(place, byte)])), Some((9, place)));
        }
    }
    // The read's old and new, each byte alone.
    for at in 43..51 {
        let place = if at < 47 { 43 } else { 47 };
        for byte in [1, 0x80, 255] {
            assert_eq!(refused(&with(&[(at, byte)])), Some((9, place)));
        }
    }
    // A compare row made a read.
    assert_eq!(refused(&with(&[(28, 0)])), Some((9, 31)));
    let without_old = [(28, 0), (31, 0), (34, 0)];
    assert_eq!(refused(&with(&without_old)), Some((9, 35)));
}

#[test]
fn the_first_faulty_field_of_the_first_faulty_row_is_told() {
    let faults = [(39, 2), (40, 3), (41, 2), (42, 1), (46, 1), (50, 1)];
    let places = [39, 40, 41, 42, 43, 47];
    for (first, place) in places.into_iter().enumerate() {
        // An earlier field of a later row does not matter.
        let mut changes = faults[first..].to_vec();
        changes.push((51, 9));
        assert_eq!(refused(&with(&changes)), Some((9, place)));
    }
}

#[test]
fn refusals_10_to_12_with_their_places() {
    assert_eq!(refused(&with(&[(27, 1)])), Some((10, 39)));
    assert_eq!(refused(&with(&[(39, 1), (51, 0)])), Some((10, 51)));
    assert_eq!(refused(&with(&[(37, 0)])), Some((11, 27)));
    assert_eq!(refused(&with(&[(57, 2)])), Some((11, 51)));
    for byte in [0x02, 0x12, 0x22, 0x30, 0xE0, 0xF1, 0xFF] {
        assert_eq!(refused(&with(&[(63, byte)])), Some((12, 63)));
        assert_eq!(refused(&with(&[(66, byte)])), Some((12, 66)));
    }
}

/// The schedule begins at 63.
#[test]
fn refusal_16_with_its_place() {
    for (at, byte) in [(63, 0x20), (65, 0x10), (65, 0x21), (66, 0x20), (66, 0x21)] {
        assert_eq!(refused(&with(&[(at, byte)])), Some((16, at)));
    }
    assert_eq!(refused(&with(&[(64, 0xF0)])), None);
    assert_eq!(refused(&with(&[(64, 0xF0), (66, 0x20)])), Some((16, 66)));
    assert_eq!(refused(&with(&[(64, 0xF0), (66, 0x21)])), None);
}

/// Old and new that differ in one bit only are no equals.
#[test]
fn every_bit_of_old_and_new_counts_in_refusal_11() {
    for bit in 0..32 {
        let new = 0x8000_0007u32 ^ 1 << bit;
        let mut file = FILE.to_vec();
        file[35..39].copy_from_slice(&new.to_le_bytes());
        assert_eq!(refused(&file), None);
    }
}

#[test]
fn the_longest_file_has_7307_bytes_and_is_not_refused() {
    let mut file = b"SWR\x02\x00\x10\x10\x00\x02\x00\x04".to_vec();
    file.extend([0xFF; 16 * 8]);
    for _ in 0..512 {
        file.extend([15, 0, 15, 0, 0, 0, 0, 0, 0, 0, 0, 0]);
    }
    file.extend([0x0F; 1024]);
    assert_eq!(file.len(), 7307);
    let mut buffers = lent();
    let ran = run(&file, &mut buffers).expect("a valid file");
    assert_eq!((ran.log_rows, ran.answer_rows), (170, 170));
    assert_eq!(buffers.words, [u64::MAX; 16]);
    assert_eq!(buffers.log[..5], [3, 15, 0, 3, u32::MAX]);
}

/// A file of one word, with these compare rows: process, old and new.
fn file(version: Version, word: u64, rows: &[(u8, u32, u32)], schedule: &[u8]) -> Vec<u8> {
    let processes = rows.iter().map(|row| row.0 + 1).max().unwrap_or(1);
    let mut file = b"SWR".to_vec();
    file.extend(version.number().to_le_bytes());
    file.extend([processes, 1, rows.len() as u8, 0]);
    file.extend([schedule.len() as u8, 0]);
    let extend = |file: &mut Vec<u8>, value: u32| match version {
        Version::One => file.extend((value as u16).to_le_bytes()),
        Version::Two => file.extend(value.to_le_bytes()),
    };
    extend(&mut file, word as u32);
    extend(&mut file, (word >> 32) as u32);
    for (process, old, new) in rows {
        file.extend([*process, 1, 0, 0]);
        extend(&mut file, *old);
        extend(&mut file, *new);
    }
    file.extend(schedule);
    file
}

/// The buffers behind a run over one word.
fn behind(file: &[u8]) -> Buffers {
    let mut buffers = lent();
    run(file, &mut buffers).expect("a valid file");
    buffers
}

/// Process p turns bit 32 + p and nothing else; new takes all the low bits.
#[test]
fn a_swap_turns_its_own_bit_and_carries_the_others() {
    for process in 0..16 {
        for word in [0, u64::MAX << 32, 0x8001_5A5A << 32, 0xFFFF << 48] {
            let (old, new) = (0xFFFF_FFF0, 0x0000_000F);
            let rows = [(process, old, new)];
            let start = word | u64::from(old);
            let turned = word ^ 1 << (32 + process);
            let after = behind(&file(Version::Two, start, &rows, &[process; 9]));
            assert_eq!(after.words[0], turned | u64::from(new));
            assert_eq!(after.words[1], 11);
        }
    }
}

/// A value that differs from old in one bit only is another.
#[test]
fn every_bit_of_the_value_is_compared_with_old() {
    for bit in 0..32 {
        let start = 0x8000_0007 ^ 1 << bit;
        let rows = [(0, 0x8000_0007, 5)];
        let after = behind(&file(Version::Two, start, &rows, &[0; 6]));
        assert_eq!(after.words[0], start);
        assert_eq!(after.answers[..5], [5, 0, 0, 0, 0]);
    }
}

/// "Version 1 files still run, widened as they are read": the same words, rows
/// and schedule as a file of version 2 come to the same buffers.
#[test]
fn a_file_of_version_1_runs_as_its_widened_twin() {
    let rows = [(0, 7, 8), (0, 8, 65_535), (1, 7, 9), (1, 65_535, 0)];
    let schedules: [&[u8]; 4] = [
        &[0; 18],
        &[0, 0, 0, 0, 1, 1, 1, 1, 1, 1, 1, 1, 1, 0, 0, 0, 0, 0],
        &[0, 0, 0, 0, 0, 0, 0, 0x10, 0x20, 0, 0, 0, 0, 0],
        &[0; 0],
    ];
    for flips in [0, 1, 2, 0x8000, 0xFFFF, 0x5A5A] {
        for schedule in schedules {
            let word = flips << 32 | 7;
            let one = behind(&file(Version::One, word, &rows, schedule));
            let two = behind(&file(Version::Two, word, &rows, schedule));
            assert_eq!(one, two);
        }
    }
}
