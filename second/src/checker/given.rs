//! What a run file gives, read by the checker in its own way: by offsets.

use super::Violation;

/// The file of a run that took place; so it must be one that can be read.
pub struct Given {
    pub layout: Layout,
    pub processes: u64,
    pub words: Vec<StartWord>,
    pub rows: Vec<GivenRow>,
    pub schedule: Vec<u8>,
}

/// Where things stand in a file of a version.
#[derive(Clone, Copy, Debug, PartialEq, Eq)]
pub struct Layout {
    /// 1 or 2.
    pub version: usize,
    /// All that the version decides: the bytes of a value, and of the flip
    /// bits beside it.
    value_bytes: usize,
}

pub struct StartWord {
    pub value: u64,
    pub flips: u64,
}

pub struct GivenRow {
    pub process: u64,
    /// [`READ`], [`COMPARE`] or [`ADVANCE`] in a file that is not refused.
    pub kind: u64,
    pub word: usize,
    pub old: u64,
    /// Of an advance the amount.
    pub new: u64,
}

pub const READ: u64 = 0;
pub const COMPARE: u64 = 1;
pub const ADVANCE: u64 = 2;

impl Given {
    pub fn read(file: &[u8]) -> Result<Given, Violation> {
        Given::from_offsets(file).ok_or_else(|| "a file that cannot be read has run".to_string())
    }

    fn from_offsets(file: &[u8]) -> Option<Given> {
        let layout = Layout::of(file)?;
        let schedule_length = number(file, 9, 2)?;
        let rows: Vec<usize> = layout.rows(file)?.collect();
        let schedule_begins = layout.rows_begin(file)? + layout.row_bytes() * rows.len();
        let schedule = file.get(schedule_begins..)?;
        if schedule.len() as u64 != schedule_length {
            return None;
        }
        let words = layout.words(file)?.map(|at| layout.start_word(file, at));
        let rows = rows.into_iter().map(|at| layout.given_row(file, at));
        Some(Given {
            layout,
            processes: number(file, 5, 1)?,
            words: words.collect::<Option<_>>()?,
            rows: rows.collect::<Option<_>>()?,
            schedule: schedule.to_vec(),
        })
    }

    /// Whether the byte at a position is a step of that process: its high
    /// four bits are 0 and its low four bits name the process.
    pub fn is_step_of(&self, position: u64, process: u64) -> bool {
        let byte = usize::try_from(position)
            .ok()
            .and_then(|at| self.schedule.get(at));
        byte.is_some_and(|byte| u64::from(*byte) == process)
    }
}

/// The fields of a row in file order.
pub const FIELDS: [&str; 6] = ["process", "kind", "word", "zero byte", "old", "new"];

impl Layout {
    /// None for a file of no version.
    pub fn of(file: &[u8]) -> Option<Layout> {
        let (version, value_bytes) = match number(file, 3, 2)? {
            1 => (1, 2),
            2 => (2, 4),
            _ => return None,
        };
        Some(Layout {
            version,
            value_bytes,
        })
    }

    fn word_bytes(self) -> usize {
        2 * self.value_bytes
    }

    fn row_bytes(self) -> usize {
        4 + 2 * self.value_bytes
    }

    /// "New kind 2 in version 2 files" (change request 6).
    pub fn last_kind(self) -> u64 {
        match self.version {
            1 => COMPARE,
            _ => ADVANCE,
        }
    }

    /// Offset and bytes of each of the [`FIELDS`].
    pub fn fields(self) -> [(usize, usize); 6] {
        let value = self.value_bytes;
        [
            (0, 1),
            (1, 1),
            (2, 1),
            (3, 1),
            (4, value),
            (4 + value, value),
        ]
    }

    /// Where each word begins.
    fn words(self, file: &[u8]) -> Option<impl Iterator<Item = usize>> {
        Some((11..self.rows_begin(file)?).step_by(self.word_bytes()))
    }

    fn rows_begin(self, file: &[u8]) -> Option<usize> {
        Some(11 + self.word_bytes() * number(file, 6, 1)? as usize)
    }

    /// Where each row begins, whether the file is that long or not.
    pub fn rows(self, file: &[u8]) -> Option<impl Iterator<Item = usize>> {
        let count = number(file, 7, 2)? as usize;
        Some(
            (self.rows_begin(file)?..)
                .step_by(self.row_bytes())
                .take(count),
        )
    }

    fn start_word(self, file: &[u8], at: usize) -> Option<StartWord> {
        Some(StartWord {
            value: number(file, at, self.value_bytes)?,
            flips: number(file, at + self.value_bytes, self.value_bytes)?,
        })
    }

    pub fn given_row(self, file: &[u8], row: usize) -> Option<GivenRow> {
        let field = |(offset, bytes): (usize, usize)| number(file, row + offset, bytes);
        let [process, kind, word, _, old, new] = self.fields();
        Some(GivenRow {
            process: field(process)?,
            kind: field(kind)?,
            word: field(word)? as usize,
            old: field(old)?,
            new: field(new)?,
        })
    }
}

/// The little-endian number of so many bytes at that offset.
pub fn number(file: &[u8], at: usize, bytes: usize) -> Option<u64> {
    let part = file.get(at..at.checked_add(bytes)?)?;
    Some(
        part.iter()
            .rev()
            .fold(0, |sum, byte| sum * 256 + u64::from(*byte)),
    )
}
