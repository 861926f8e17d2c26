//! Valid files: of scenes, or wild.

use super::draft::{Draft, DraftRow, Palette};
use super::random::Random;
use super::scenes::{write_scenes, Mood};
use super::script::{Size, SHORT_STEPS, STEPS_TO_A3};
use super::upright::{Upright, CRASH, CRASH_OF_ALL, WAKE};
use crate::machine::{Version, LONGEST_SCHEDULE, MOST_PROCESSES, MOST_ROWS, MOST_WORDS};

/// Three stores, A1, A5 and A6.
const STEPS_OF_A_READ: usize = 6;

pub fn valid_draft(version: Version, random: &mut Random) -> Draft {
    let size = any_size(version, random);
    draft_of(size, random)
}

/// A file that is short enough to be stored.
pub fn short_draft(version: Version, random: &mut Random) -> Draft {
    let size = Size {
        version,
        processes: random.between(1, 4),
        words: random.between(1, 3),
        schedule: random.between(0, 75),
        spare_rows: random.one_of([0, 0, 2]),
    };
    draft_of(size, random)
}

/// The same, of advances that lose rounds and are cut off.
pub fn short_advance_draft(random: &mut Random) -> Draft {
    let size = Size {
        version: Version::Two,
        processes: random.between(2, 4),
        words: random.between(1, 2),
        schedule: random.between(30, 75),
        spare_rows: 0,
    };
    within_the_row_limit(write_scenes(size, Mood::Pressed, random))
}

/// A file with the longest schedule, all of scenes of one mood.
pub fn long_draft(version: Version, mood: Mood, random: &mut Random) -> Draft {
    let size = Size {
        version,
        processes: random.between(4, MOST_PROCESSES),
        words: random.between(1, MOST_WORDS),
        schedule: LONGEST_SCHEDULE,
        spare_rows: 0,
    };
    within_the_row_limit(write_scenes(size, mood, random))
}

/// A file with the longest schedule in which work is done at every byte and
/// nothing is answered: each process is cut off in its recovery, again and
/// again.
pub fn quiet_draft(version: Version, random: &mut Random) -> Draft {
    let processes = random.between(4, MOST_PROCESSES) as u8;
    let (old, new) = match version {
        Version::One => (7, 8),
        Version::Two => (4_000_000_007, 4_000_000_008),
    };
    let rows = (0..processes).map(|process| DraftRow::swap(process, 0, old, new));
    // Start, A1, A2 and A3, so that the checkpoint is set.
    let mut schedule: Vec<u8> = (0..processes)
        .flat_map(|process| [process; STEPS_TO_A3])
        .collect();
    while schedule.len() < LONGEST_SCHEDULE {
        let process = random.below(processes.into()) as u8;
        // V1, V2 and V3: one more step would answer.
        schedule.extend([CRASH | process, WAKE | process, process, process, process]);
    }
    schedule.truncate(LONGEST_SCHEDULE);
    Draft::honest(
        version,
        processes,
        vec![old.into()],
        rows.collect(),
        schedule,
    )
}

/// A file with the longest schedule in which one process reads, again and
/// again: a row in the log for every six bytes.
pub fn reading_draft(version: Version, random: &mut Random) -> Draft {
    let value = match version {
        Version::One => random.below(65_536) as u64,
        Version::Two => u64::from(random.u32()),
    };
    let rows = vec![DraftRow::read(0, 0); LONGEST_SCHEDULE / STEPS_OF_A_READ + 1];
    Draft::honest(version, 1, vec![value], rows, vec![0; LONGEST_SCHEDULE])
}

fn draft_of(size: Size, random: &mut Random) -> Draft {
    within_the_row_limit(if random.percent(75) {
        write_scenes(size, Mood::Any, random)
    } else {
        write_wild(size, random)
    })
}

/// A file with all that fits in: 5,195 bytes, or 7,307.
pub fn fullest_draft(version: Version, random: &mut Random) -> Draft {
    let size = Size {
        version,
        processes: MOST_PROCESSES,
        words: MOST_WORDS,
        schedule: LONGEST_SCHEDULE,
        spare_rows: MOST_ROWS,
    };
    within_the_row_limit(write_wild(size, random))
}

/// Rows needed and spare rows may be too many together; the last ones go.
fn within_the_row_limit(mut draft: Draft) -> Draft {
    draft.rows.truncate(MOST_ROWS);
    draft.made_honest()
}

fn any_size(version: Version, random: &mut Random) -> Size {
    let processes = random.weighted([
        (15, (1, 1)),
        (35, (2, 2)),
        (30, (3, 4)),
        (20, (5, MOST_PROCESSES)),
    ]);
    let words = random.weighted([(50, (1, 1)), (30, (2, 3)), (20, (4, MOST_WORDS))]);
    let schedule = random.weighted([
        (3, (0, 0)),
        (12, (1, 12)),
        (40, (13, 120)),
        (30, (121, 400)),
        (12, (401, LONGEST_SCHEDULE)),
        (3, (LONGEST_SCHEDULE, LONGEST_SCHEDULE)),
    ]);
    let spare_rows = random.weighted([
        (56, (0, 0)),
        (34, (1, 30)),
        (6, (31, MOST_ROWS)),
        (4, (MOST_ROWS, MOST_ROWS)),
    ]);
    let mut within = |(low, high): (usize, usize)| random.between(low, high);
    Size {
        version,
        processes: within(processes),
        words: within(words),
        schedule: within(schedule),
        spare_rows: within(spare_rows),
    }
}

/// Any rows of few values, and a schedule in bursts of one process, with
/// crashes and wakes wherever they fall, unless they are idle there.
fn write_wild(size: Size, random: &mut Random) -> Draft {
    let mut palette = Palette::pick(size.version, random);
    if size.version == Version::Two {
        palette.advances = random.one_of([0, 30, 80]);
    }
    let words = (0..size.words)
        .map(|_| palette.start_word(random))
        .collect();
    let row_count = size.schedule / SHORT_STEPS + size.spare_rows;
    let mut owners: Vec<u8> = (0..row_count)
        .map(|_| random.below(size.processes) as u8)
        .collect();
    owners.sort_unstable();
    let rows: Vec<DraftRow> = owners
        .iter()
        .map(|process| palette.row(*process, size.words, random))
        .collect();
    let schedule = wild_schedule(size, random);
    Draft::honest(size.version, size.processes as u8, words, rows, schedule)
}

fn wild_schedule(size: Size, random: &mut Random) -> Vec<u8> {
    let longest_burst = random.one_of([1, 3, 10]);
    let crashes = random.one_of([0, 2, 8]);
    let mut upright = Upright::at_first();
    let mut schedule = Vec::new();
    while schedule.len() < size.schedule {
        let process = random.below(size.processes) as u8;
        let burst = random.between(1, longest_burst);
        let mut bytes = vec![process; burst];
        if random.percent(crashes) {
            bytes.push(CRASH | process);
        }
        if random.percent(crashes * 3) {
            bytes.push(WAKE | random.below(size.processes) as u8);
        }
        if random.percent(crashes) && random.percent(10) {
            bytes.push(CRASH_OF_ALL);
        }
        schedule.extend(bytes.into_iter().filter(|byte| upright.takes(*byte)));
    }
    schedule.truncate(size.schedule);
    schedule
}
