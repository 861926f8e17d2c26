//! Damage to the bytes of a file, by one who does not know what they mean.

use super::draft::Draft;
use super::random::Random;
use crate::stream::LONGEST_FILE;

pub fn damaged(draft: Draft, random: &mut Random) -> Vec<u8> {
    // The longest file that need not be refused for its length.
    let longest = draft.layout.longest_file();
    let mut file = draft.bytes();
    match random.below(10) {
        0 | 1 => flip_bits(&mut file, random),
        2 => lose_bytes(&mut file, random),
        3 => add_bytes(&mut file, random),
        4 => file.truncate(random.below(file.len())),
        5 => extend(&mut file, random),
        6 => file.truncate(random.one_of([0, 10, 11, 12, 15])),
        7 => file = random_bytes(random),
        8 => random_bytes_behind_a_header(&mut file, random),
        _ => over_long(&mut file, longest, random),
    }
    file
}

fn flip_bits(file: &mut [u8], random: &mut Random) {
    for _ in 0..random.one_of([1, 1, 2, 8]) {
        let at = random.below(file.len());
        if let Some(byte) = file.get_mut(at) {
            *byte ^= 1 << random.below(8);
        }
    }
}

fn lose_bytes(file: &mut Vec<u8>, random: &mut Random) {
    for _ in 0..random.one_of([1, 1, 2, 8]) {
        let at = random.below(file.len());
        if at < file.len() {
            file.remove(at);
        }
    }
}

fn add_bytes(file: &mut Vec<u8>, random: &mut Random) {
    for _ in 0..random.one_of([1, 1, 2, 8]) {
        let at = random.below(file.len() + 1);
        file.insert(at, random.byte());
    }
}

fn extend(file: &mut Vec<u8>, random: &mut Random) {
    let count = random.one_of([1, 2, 4, 8, 100]);
    file.extend(random.bytes(count));
}

fn random_bytes(random: &mut Random) -> Vec<u8> {
    let most = random.one_of([12, 60, 200, LONGEST_FILE]);
    let length = random.between(0, most);
    random.bytes(length)
}

/// A true header, but anything behind it, in the right length.
fn random_bytes_behind_a_header(file: &mut [u8], random: &mut Random) {
    for byte in file.iter_mut().skip(11) {
        *byte = random.byte();
    }
}

/// Longer than any file may be, under a header that may look right.
fn over_long(file: &mut Vec<u8>, longest: usize, random: &mut Random) {
    let any = random.between(longest + 1, LONGEST_FILE);
    let length = random.one_of([longest + 1, LONGEST_FILE, any]);
    let missing = length.saturating_sub(file.len());
    file.extend(random.bytes(missing));
}
