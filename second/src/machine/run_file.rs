//! Reading a run file, with refusals 1 to 12, and refusal 16.
//!
//! "Checks go in this order. Each check goes over the whole file before the
//! next begins, and the first offender is reported." So every check below is
//! a pass of its own, and the passes stand in the order of the table; 16 comes
//! "straight after 12 and before 13" (change request 7).

use super::action::Action;
use super::idle::first_idle;
use super::refusal::{refuse_at, refuse_if, Cause, Refusal};
use super::row::{Field, Row};
use super::version::{Version, LONGEST_SCHEDULE, MOST_PROCESSES, MOST_ROWS, MOST_WORDS};
use super::word::Word;

/// A run file in which 1 to 12 find nothing to refuse: every process and word
/// that a row or an action names is there, and rows stand in order of process.
/// Of which version it was can no longer be told.
#[derive(Debug)]
pub struct RunFile {
    pub processes: usize,
    pub words: Vec<Word>,
    pub rows: Vec<Row>,
    pub schedule: Vec<Action>,
    /// Where the schedule begins in the file.
    schedule_begins: usize,
}

/// The header's numbers, not yet trusted.
struct Header {
    mark: [u8; 3],
    version: u16,
    processes: usize,
    words: usize,
    rows: usize,
    schedule: usize,
}

/// What follows the header, cut where the header says.
struct Parts<'f> {
    words: &'f [u8],
    rows: &'f [u8],
    /// "The schedule is the part of the file that begins after the last row."
    schedule: &'f [u8],
}

impl RunFile {
    /// Refusals 1 to 12, which a panel's file has, too.
    pub fn read(file: &[u8]) -> Result<RunFile, Refusal> {
        let (header, body) = Header::split_from(file)?;
        let version = header.check()?;
        let parts = header.cut(version, body)?;
        let rows = header.read_rows(version, parts.rows)?;
        let schedule = header.read_schedule(version, parts.schedule)?;
        Ok(RunFile {
            processes: header.processes,
            words: version.words(parts.words),
            rows,
            schedule,
            schedule_begins: header.schedule_begins(version),
        })
    }

    /// Refusal 16, at the "place of the first such byte". Only of a file that
    /// is to be run: "on the panel only for the key byte".
    pub fn check_idle(&self) -> Result<(), Refusal> {
        let idle = first_idle(&self.schedule, self.processes);
        refuse_at(idle.map(|at| self.schedule_begins + at), Cause::IdleByte)
    }
}

impl Header {
    /// Refusal 1: "file under 11 bytes". "Numbers are little-endian."
    fn split_from(file: &[u8]) -> Result<(Header, &[u8]), Refusal> {
        let [m0, m1, m2, v0, v1, processes, words, r0, r1, s0, s1, body @ ..] = file else {
            return Err(Refusal {
                cause: Cause::Under11Bytes,
                place: 0,
            });
        };
        let header = Header {
            mark: [*m0, *m1, *m2],
            version: u16::from_le_bytes([*v0, *v1]),
            processes: usize::from(*processes),
            words: usize::from(*words),
            rows: usize::from(u16::from_le_bytes([*r0, *r1])),
            schedule: usize::from(u16::from_le_bytes([*s0, *s1])),
        };
        Ok((header, body))
    }

    /// Refusals 2 to 7. "P and W are 1 to 16, rows 0 to 512, S 0 to 1,024."
    fn check(&self) -> Result<Version, Refusal> {
        refuse_if(self.mark != *b"SWR", Cause::Mark)?;
        let Some(version) = Version::numbered(self.version) else {
            return Err(Refusal {
                cause: Cause::Version,
                place: 0,
            });
        };
        let in_range = |count: usize, most: usize| (1..=most).contains(&count);
        refuse_if(
            !in_range(self.processes, MOST_PROCESSES),
            Cause::ProcessCount,
        )?;
        refuse_if(!in_range(self.words, MOST_WORDS), Cause::WordCount)?;
        refuse_if(self.rows > MOST_ROWS, Cause::RowCount)?;
        refuse_if(self.schedule > LONGEST_SCHEDULE, Cause::ScheduleLength)?;
        Ok(version)
    }

    /// Refusal 8: "file length is not what the header gives". "Then W words
    /// ..., the operation rows ..., the schedule bytes, and nothing more."
    fn cut<'f>(&self, version: Version, body: &'f [u8]) -> Result<Parts<'f>, Refusal> {
        let words_length = version.word_bytes() * self.words;
        let rows_length = version.row_bytes() * self.rows;
        let promised = words_length + rows_length + self.schedule;
        refuse_if(body.len() != promised, Cause::FileLength)?;
        let (words, rest) = body.split_at(words_length);
        let (rows, schedule) = rest.split_at(rows_length);
        Ok(Parts {
            words,
            rows,
            schedule,
        })
    }

    /// Refusal 9 at the first byte of "the first faulty field of the first
    /// faulty row" (change request 2); 10 and 11 at the "row's first byte".
    fn read_rows(&self, version: Version, bytes: &[u8]) -> Result<Vec<Row>, Refusal> {
        let row_place = |number| version.row_place(self.words, number);
        let checked: Vec<Result<Row, Field>> = version.rows(bytes, |row| {
            row.checked(version, self.processes, self.words)
        });
        let faulty_field = checked.iter().enumerate().find_map(|(number, row)| {
            let field = row.err()?;
            Some(row_place(number) + version.offset(field))
        });
        refuse_at(faulty_field, Cause::RowField)?;

        let rows: Vec<Row> = checked.into_iter().flatten().collect();
        let below_the_one_before = rows
            .windows(2)
            .position(|pair| matches!(pair, [before, row] if row.process < before.process))
            .map(|before| row_place(before + 1));
        refuse_at(below_the_one_before, Cause::RowOrder)?;

        let the_same = rows.iter().position(Row::puts_in_the_same);
        refuse_at(the_same.map(row_place), Cause::PutsInTheSame)?;
        Ok(rows)
    }

    /// Refusal 12: "a schedule byte that is no action", at "that byte".
    fn read_schedule(&self, version: Version, bytes: &[u8]) -> Result<Vec<Action>, Refusal> {
        let decoded: Vec<Option<Action>> = bytes
            .iter()
            .map(|byte| Action::decode(*byte, self.processes))
            .collect();
        let no_action = decoded.iter().position(Option::is_none);
        let schedule_begins = self.schedule_begins(version);
        refuse_at(no_action.map(|at| schedule_begins + at), Cause::NoAction)?;
        Ok(decoded.into_iter().flatten().collect())
    }

    /// "The schedule is the part of the file that begins after the last row."
    fn schedule_begins(&self, version: Version) -> usize {
        version.row_place(self.words, self.rows)
    }
}
