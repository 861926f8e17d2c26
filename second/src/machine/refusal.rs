//! The table "Refusal numbers", and the numbers of change requests 3 and 7.

/// Why a file or a key is refused; each case has its number.
#[derive(Clone, Copy, Debug, PartialEq, Eq)]
pub enum Cause {
    /// "file under 11 bytes"
    Under11Bytes = 1,
    /// "mark is not `SWR`"
    Mark = 2,
    /// "a version that is neither 1 nor 2" (change request 5)
    Version = 3,
    /// "P is 0 or over 16"
    ProcessCount = 4,
    /// "W is 0 or over 16"
    WordCount = 5,
    /// "over 512 rows"
    RowCount = 6,
    /// "S over 1,024"
    ScheduleLength = 7,
    /// "file length is not what the header gives"
    FileLength = 8,
    /// "a row's process, kind or word out of range, its zero byte not 0, or
    /// a read whose old or new is not 0"; by change request 2 its place is
    /// that of the field, and by change request 6 it "covers old not 0" of an
    /// advance, "and kind 2 in version 1"
    RowField = 9,
    /// "a row's process is below that of the row before"
    RowOrder = 10,
    /// "a compare row with old equal to new"; it "covers amount 0" of an
    /// advance (change request 6)
    PutsInTheSame = 11,
    /// "a schedule byte that is no action"
    NoAction = 12,
    /// "words buffer under W"; for a key "also for a list shorter than P"
    /// (change request 3)
    WordsBuffer = 13,
    /// "log buffer under 5 × S"; for a key "no room for one more row"
    LogBuffer = 14,
    /// "answers buffer under 5 × S"; for a key the same as 14
    AnswersBuffer = 15,
    /// "A crash of a process already down, or a wake of one already up" (change
    /// request 7): in a schedule "checked straight after 12 and before 13", for
    /// a key "after 22"
    IdleByte = 16,
    /// of a key only: a position over 1,023, or a record that no run comes to
    PanelState = 21,
    /// "a key byte that is no action"
    KeyByte = 22,
}

/// "The result is the number and a place, counted in bytes of the file from 0".
#[derive(Clone, Copy, Debug, PartialEq, Eq)]
pub struct Refusal {
    pub cause: Cause,
    pub place: usize,
}

impl Refusal {
    pub fn number(self) -> u32 {
        self.cause as u32
    }
}

/// A check that has the whole file for its object: its place is 0.
pub fn refuse_if(faulty: bool, cause: Cause) -> Result<(), Refusal> {
    refuse_at(faulty.then_some(0), cause)
}

/// A check that looks for the first offender: refuses at that place, if any.
pub fn refuse_at(place: Option<usize>, cause: Cause) -> Result<(), Refusal> {
    match place {
        Some(place) => Err(Refusal { cause, place }),
        None => Ok(()),
    }
}
