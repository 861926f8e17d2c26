//! The lengths of the buffers to lend.

use super::random::Random;
use crate::stream::{Lengths, MOST_ANSWERS, MOST_LOG, MOST_WORDS};

/// Lengths that do for every file.
fn ample() -> Lengths {
    Lengths {
        words: 16,
        log: 5_120,
        answers: 5_120,
    }
}

/// Lengths that a valid file needs: W, 5 × S and 5 × S.
pub fn exact(words: usize, schedule: usize) -> Lengths {
    Lengths {
        words,
        log: 5 * schedule,
        answers: 5 * schedule,
    }
}

/// Long enough for the file: exact, ample, or larger by any number.
pub fn sufficient(needed: Lengths, random: &mut Random) -> Lengths {
    match random.below(4) {
        0 | 1 => needed,
        2 => Lengths {
            words: random.between(needed.words, MOST_WORDS),
            log: random.between(needed.log, (needed.log + 40).min(MOST_LOG)),
            answers: random.between(needed.answers, (needed.answers + 40).min(MOST_ANSWERS)),
        },
        _ => ample(),
    }
}

/// Too short for the file in one buffer or in several.
pub fn short(needed: Lengths, random: &mut Random) -> Lengths {
    let mut lengths = sufficient(needed, random);
    let which = random.between(1, 7);
    if which & 1 != 0 {
        lengths.words = too_few(needed.words, random);
    }
    if which & 2 != 0 {
        lengths.log = too_few(needed.log, random);
    }
    if which & 4 != 0 {
        lengths.answers = too_few(needed.answers, random);
    }
    lengths
}

/// For a file of which nobody knows what it needs.
pub fn any(random: &mut Random) -> Lengths {
    if random.percent(50) {
        return ample();
    }
    let most = random.one_of([0, 20, 1_000, MOST_LOG]);
    Lengths {
        words: random.between(0, most.min(MOST_WORDS)),
        log: random.between(0, most),
        answers: random.between(0, most.min(MOST_ANSWERS)),
    }
}

/// One too few, none at all, or any number below.
fn too_few(needed: usize, random: &mut Random) -> usize {
    let any = random.below(needed);
    random.one_of([needed.saturating_sub(1), needed.saturating_sub(1), 0, any])
}
