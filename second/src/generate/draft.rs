//! A run file on the writer's table: every field can still be set wrong, and
//! the header need not tell the truth about what follows.

use super::random::Random;
use crate::machine::Version;

pub struct Draft {
    /// The version in which words and rows are laid out.
    pub layout: Version,
    pub mark: [u8; 3],
    pub version: u16,
    pub processes: u8,
    pub word_count: u8,
    pub row_count: u16,
    pub schedule_length: u16,
    /// As the words buffer has them: values in the low 32 bits.
    pub words: Vec<u64>,
    pub rows: Vec<DraftRow>,
    pub schedule: Vec<u8>,
    /// Bytes behind the schedule, where none should be.
    pub tail: Vec<u8>,
    /// The length at which the file is cut off, if it is.
    pub cut: Option<usize>,
}

#[derive(Clone, Copy)]
pub struct DraftRow {
    pub process: u8,
    pub kind: u8,
    pub word: u8,
    pub zero: u8,
    pub old: u32,
    pub new: u32,
}

impl DraftRow {
    pub fn read(process: u8, word: u8) -> DraftRow {
        DraftRow {
            process,
            kind: 0,
            word,
            zero: 0,
            old: 0,
            new: 0,
        }
    }

    pub fn swap(process: u8, word: u8, old: u32, new: u32) -> DraftRow {
        DraftRow {
            kind: 1,
            old,
            new,
            ..DraftRow::read(process, word)
        }
    }

    /// In a file of version 2: "old is 0, new is the amount".
    pub fn advance(process: u8, word: u8, amount: u32) -> DraftRow {
        DraftRow {
            kind: 2,
            new: amount,
            ..DraftRow::read(process, word)
        }
    }

    fn write(&self, layout: Version, file: &mut Vec<u8>) {
        file.extend([self.process, self.kind, self.word, self.zero]);
        for value in [self.old, self.new] {
            write_value(value, layout, file);
        }
    }
}

/// A value, or the flip bits of a word: in version 1 what the low 16 bits are.
fn write_value(value: u32, layout: Version, file: &mut Vec<u8>) {
    match layout {
        Version::One => file.extend((value as u16).to_le_bytes()),
        Version::Two => file.extend(value.to_le_bytes()),
    }
}

impl Draft {
    /// A file whose header gives what is there.
    pub fn honest(
        layout: Version,
        processes: u8,
        words: Vec<u64>,
        rows: Vec<DraftRow>,
        schedule: Vec<u8>,
    ) -> Draft {
        Draft {
            layout,
            mark: *b"SWR",
            version: layout.number(),
            processes,
            word_count: words.len() as u8,
            row_count: rows.len() as u16,
            schedule_length: schedule.len() as u16,
            words,
            rows,
            schedule,
            tail: Vec::new(),
            cut: None,
        }
    }

    /// The same words, rows and schedule under a header that gives them.
    pub fn made_honest(self) -> Draft {
        let Draft {
            layout,
            processes,
            words,
            rows,
            schedule,
            ..
        } = self;
        Draft::honest(layout, processes, words, rows, schedule)
    }

    pub fn bytes(&self) -> Vec<u8> {
        let mut file = self.mark.to_vec();
        file.extend(self.version.to_le_bytes());
        file.extend([self.processes, self.word_count]);
        file.extend(self.row_count.to_le_bytes());
        file.extend(self.schedule_length.to_le_bytes());
        for word in &self.words {
            write_value(*word as u32, self.layout, &mut file);
            write_value((word >> 32) as u32, self.layout, &mut file);
        }
        for row in &self.rows {
            row.write(self.layout, &mut file);
        }
        file.extend(&self.schedule);
        file.extend(&self.tail);
        file.truncate(self.cut.unwrap_or(file.len()));
        file
    }
}

/// The few values that a file's words and rows use, so that compare rows
/// often meet their old value. At least two.
pub struct Palette {
    version: Version,
    values: Vec<u32>,
    /// How many of a hundred changes of a word are advances.
    pub advances: usize,
}

impl Palette {
    pub fn pick(version: Version, random: &mut Random) -> Palette {
        let size = random.between(2, 4);
        let mut values: Vec<u32> = Vec::new();
        while values.len() < size {
            let value = match version {
                Version::One => value_of_16_bits(random),
                Version::Two => value_of_32_bits(values.last().copied(), random),
            };
            if !values.contains(&value) {
                values.push(value);
            }
        }
        Palette {
            version,
            values,
            advances: 0,
        }
    }

    /// Whether the next change is to be an advance. Where there are none at
    /// all, chance is not asked.
    pub fn advances_next(&self, random: &mut Random) -> bool {
        self.advances > 0 && random.percent(self.advances)
    }

    /// By how much an advance goes that meets this value: mostly by so many
    /// bytes of one segment or two; now and then just past 4,294,967,295, to
    /// another value, back, or anywhere. Never by 0.
    pub fn amount(&self, from: u32, random: &mut Random) -> u32 {
        let bytes = random.between(1, 1460) as u32;
        let past_the_end = (random.below(3000) as u32).wrapping_sub(from);
        let to_another = self.value_other_than(from, random).wrapping_sub(from);
        let any = random.u32();
        let amount = random.weighted([
            (4, bytes),
            (3, 1460),
            (1, 2 * 1460),
            (1, 65_536),
            (3, past_the_end),
            (4, to_another),
            (1, u32::MAX),
            (1, any),
        ]);
        amount.max(1)
    }

    pub fn value(&self, random: &mut Random) -> u32 {
        self.values[random.below(self.values.len())]
    }

    pub fn value_other_than(&self, value: u32, random: &mut Random) -> u32 {
        let other = self.value(random);
        if other != value {
            return other;
        }
        // Two values differ, so one of them is another.
        let first_other = self.values.iter().find(|candidate| **candidate != value);
        first_other.copied().unwrap_or(value ^ 1)
    }

    /// Any valid row.
    pub fn row(&self, process: u8, words: usize, random: &mut Random) -> DraftRow {
        let word = random.below(words) as u8;
        if random.percent(25) {
            return DraftRow::read(process, word);
        }
        let old = self.value(random);
        if self.advances_next(random) {
            return DraftRow::advance(process, word, self.amount(old, random));
        }
        DraftRow::swap(process, word, old, self.value_other_than(old, random))
    }

    /// "Any start word is allowed": mostly with flip bits set, also those of
    /// absent processes and, in version 2, bits that are no process's at all.
    pub fn start_word(&self, random: &mut Random) -> u64 {
        let flips = match self.version {
            _ if !random.percent(75) => 0,
            Version::One => random.u16().into(),
            Version::Two => any_high_bits(random),
        };
        u64::from(flips) << 32 | u64::from(self.value(random))
    }
}

fn value_of_16_bits(random: &mut Random) -> u32 {
    let any = random.u16();
    let value = random.one_of([0, 1, 7, 8, 0x00FF, 0x0100, 0x7FFF, 0x8000, 0xFFFF, any]);
    value.into()
}

/// Often a TCP sequence number: some segments further than the last value,
/// round past 4,294,967,295 if need be. Now and then one that is like the last
/// value in its low 16 bits, or in its high ones.
fn value_of_32_bits(last: Option<u32>, random: &mut Random) -> u32 {
    let any = random.u32();
    let near_the_end = u32::MAX - u32::from(random.byte());
    let Some(last) = last else {
        return random.one_of([any, any, near_the_end, 0, 7, 0xFFFF, 0x0001_0000, 1 << 31]);
    };
    let bytes = random.between(1, 1460) as u32;
    let further = random.one_of([1, bytes, 1460, 2 * 1460, 65_535, 65_536]);
    let sequence = last.wrapping_add(further);
    let like_in_16_bits = last ^ (any & 0xFFFF_0000);
    random.one_of([
        sequence,
        sequence,
        sequence,
        like_in_16_bits,
        near_the_end,
        any,
    ])
}

/// The bits of a word from 32 up: any, those of processes only, those of none
/// only, or a single one.
fn any_high_bits(random: &mut Random) -> u32 {
    let any = random.u32();
    let single = 1 << random.below(32);
    random.one_of([any, any, any & 0xFFFF, any & 0xFFFF_0000, single, u32::MAX])
}
