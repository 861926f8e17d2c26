//! A shared word.

/// "low 32 bits the value, flip bits from bit 32 up" (change request 5): bit
/// 32 + p is the flip bit of process p. Two words are equal when "the whole
/// word, bits included" is.
#[derive(Clone, Copy, Debug, PartialEq, Eq)]
pub struct Word {
    pub value: u32,
    /// Bit p of this number is the flip bit of process p. The bits from 16 up
    /// belong to no process and are carried along.
    flips: u32,
}

impl Word {
    pub fn from_number(number: u64) -> Word {
        Word {
            value: number as u32,
            flips: (number >> 32) as u32,
        }
    }

    /// A word of version 1: "A word's low 16 bits are its value; bit 16 + p is
    /// the flip bit of process p."
    pub fn widened(number: u32) -> Word {
        Word {
            value: number & 0xFFFF,
            flips: number >> 16,
        }
    }

    pub fn number(self) -> u64 {
        u64::from(self.flips) << 32 | u64::from(self.value)
    }

    pub fn flip_bit(self, process: usize) -> bool {
        self.flips & own_bit(process) != 0
    }

    /// "put in new and turn the own flip bit"
    pub fn swapped(self, process: usize, new: u32) -> Word {
        Word {
            value: new,
            flips: self.flips ^ own_bit(process),
        }
    }
}

/// The bit of a process among the flip bits. Processes are below 16, so the
/// mask changes nothing; it only keeps the shift in range by itself.
fn own_bit(process: usize) -> u32 {
    1 << (process & 15)
}
