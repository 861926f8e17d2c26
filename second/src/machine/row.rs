//! An operation row of the run file.

use super::version::Version;

/// What a row asks for: "Kind 0 reads ...; kind 1 compares and swaps." "New
/// kind 2 in version 2 files: old is 0, new is the amount" (change request 6).
#[derive(Clone, Copy, Debug, PartialEq, Eq)]
pub enum Operation {
    Read,
    CompareAndSwap { old: u32, new: u32 },
    Advance { amount: u32 },
}

#[derive(Clone, Copy, Debug, PartialEq, Eq)]
pub struct Row {
    pub process: usize,
    pub word: usize,
    pub operation: Operation,
}

/// The fields of a row, in file order. Where each stands the version says.
#[derive(Clone, Copy, Debug, PartialEq, Eq)]
pub enum Field {
    Process,
    Kind,
    Word,
    Zero,
    Old,
    New,
}

/// A row as it is written, its fields not yet trusted.
#[derive(Clone, Copy, Debug, PartialEq, Eq)]
pub struct WrittenRow {
    pub process: u8,
    pub kind: u8,
    pub word: u8,
    pub zero: u8,
    pub old: u32,
    pub new: u32,
}

impl WrittenRow {
    /// The row, or its first faulty field when refusal 9 is due: "a row's
    /// process, kind or word out of range, its zero byte not 0, or a read
    /// whose old or new is not 0". "fields go in file order" (change request 2).
    /// By change request 6 "9 covers old not 0" of an advance, "and kind 2 in
    /// version 1".
    pub fn checked(self, version: Version, processes: usize, words: usize) -> Result<Row, Field> {
        let WrittenRow {
            kind,
            zero,
            old,
            new,
            ..
        } = self;
        let process = usize::from(self.process);
        let word = usize::from(self.word);
        let operation = match kind {
            0 => Some(Operation::Read),
            1 => Some(Operation::CompareAndSwap { old, new }),
            2 if version.has_advances() => Some(Operation::Advance { amount: new }),
            _ => None,
        };

        sound_if(process < processes, Field::Process)?;
        let operation = operation.ok_or(Field::Kind)?;
        sound_if(word < words, Field::Word)?;
        sound_if(zero == 0, Field::Zero)?;
        sound_if(operation.has_an_old() || old == 0, Field::Old)?;
        sound_if(operation.has_a_new() || new == 0, Field::New)?;
        Ok(Row {
            process,
            word,
            operation,
        })
    }
}

impl Operation {
    fn has_an_old(self) -> bool {
        matches!(self, Operation::CompareAndSwap { .. })
    }

    /// The field new of an advance is its amount.
    fn has_a_new(self) -> bool {
        !matches!(self, Operation::Read)
    }
}

impl Row {
    /// Refusal 11: "a compare row with old equal to new", or an advance whose
    /// amount is 0. Either would be a successful swap that leaves the value as
    /// it was: a waiting swap would lose to it although the value was old all
    /// along, and its "false" would have no place in the log.
    pub fn puts_in_the_same(&self) -> bool {
        match self.operation {
            Operation::Read => false,
            Operation::CompareAndSwap { old, new } => old == new,
            Operation::Advance { amount } => amount == 0,
        }
    }
}

fn sound_if(sound: bool, field: Field) -> Result<(), Field> {
    if sound {
        Ok(())
    } else {
        Err(field)
    }
}
