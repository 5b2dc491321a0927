//! What accepted memory calls answer.

use std::slice;

use crate::code::Reading;

/// The answer of one access: of a scrub, of a beat of a burst, of a read or
/// write inside a doubleword, or of one access of a split.
#[derive(Clone, Copy, Debug, PartialEq, Eq, Hash)]
pub enum Answer {
    Clean,
    /// ECC-6: one bit was wrong and was put right, this flip bit (0 to 71).
    Corrected(u8),
    Uncorrectable,
    Stored,
    NoBank,
}

impl From<Reading> for Answer {
    fn from(reading: Reading) -> Self {
        match reading {
            Reading::Clean => Answer::Clean,
            Reading::Corrected(bit) => Answer::Corrected(bit),
            Reading::Uncorrectable => Answer::Uncorrectable,
        }
    }
}

/// What an accepted read or write answers.
#[derive(Clone, Copy, Debug, PartialEq, Eq, Hash)]
pub enum Answers {
    /// All its bytes lie in one doubleword.
    Single(Answer),
    /// MEM-18: one answer for each access of a split, the lower address first.
    Split([Answer; 2]),
}

impl Answers {
    /// The answer of each access, in the order of the accesses.
    pub fn kinds(&self) -> &[Answer] {
        match self {
            Answers::Single(answer) => slice::from_ref(answer),
            Answers::Split(answers) => answers,
        }
    }
}
