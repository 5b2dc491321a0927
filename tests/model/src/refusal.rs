//! The twenty refusals (REF-1 to REF-20) and what each returns.

/// Why a call is refused. Refusals 12 to 14 carry the bank that is returned
/// with the number.
#[derive(Clone, Copy, Debug, PartialEq, Eq, Hash)]
pub enum Refusal {
    /// REF-1: the offset has no register.
    OffsetNotListed,
    /// REF-2: the error address cannot be written.
    ReadOnly,
    /// REF-3: a value that the register does not take.
    BadValue,
    /// REF-4: a bank register, while memory is on.
    LockedWhileOn,
    /// REF-5: the record is not ready.
    NotSwitchedOn,
    /// REF-6: a count out of range.
    BadCount,
    /// REF-7: past the last address.
    PassesLastAddress,
    /// REF-8: a flip bit out of range.
    BadFlipBit,
    /// REF-9: not all of the cell is lent.
    CellNotLent,
    /// REF-10: a flip selects no bank.
    FlipWithoutBank,
    /// REF-11: no bank is enabled.
    NoneEnabled,
    /// REF-12: a bank starts above its last megabyte.
    StartAboveEnd(u8),
    /// REF-13: a bank is too long.
    TooLong(u8),
    /// REF-14: two banks share a megabyte.
    MeetsLowerBank(u8),
    /// REF-15: the way back of no enabled bank.
    NoSuchBank,
    /// REF-16: the way back of a row or column out of range.
    RowOrColumnTooLarge,
    /// REF-17: no address in the span.
    NoAddress,
    /// REF-18: a malformed line.
    MalformedLine,
    /// REF-19: a burst that starts inside a doubleword.
    Misaligned,
    /// REF-20: a burst of more or less than a cache line.
    NotCacheLine,
}

impl Refusal {
    /// The number of this refusal.
    pub fn number(self) -> u8 {
        match self {
            Refusal::OffsetNotListed => 1,
            Refusal::ReadOnly => 2,
            Refusal::BadValue => 3,
            Refusal::LockedWhileOn => 4,
            Refusal::NotSwitchedOn => 5,
            Refusal::BadCount => 6,
            Refusal::PassesLastAddress => 7,
            Refusal::BadFlipBit => 8,
            Refusal::CellNotLent => 9,
            Refusal::FlipWithoutBank => 10,
            Refusal::NoneEnabled => 11,
            Refusal::StartAboveEnd(_) => 12,
            Refusal::TooLong(_) => 13,
            Refusal::MeetsLowerBank(_) => 14,
            Refusal::NoSuchBank => 15,
            Refusal::RowOrColumnTooLarge => 16,
            Refusal::NoAddress => 17,
            Refusal::MalformedLine => 18,
            Refusal::Misaligned => 19,
            Refusal::NotCacheLine => 20,
        }
    }

    /// The bank returned with the number: only 12, 13 and 14 have one.
    pub fn bank(self) -> Option<u8> {
        match self {
            Refusal::StartAboveEnd(bank)
            | Refusal::TooLong(bank)
            | Refusal::MeetsLowerBank(bank) => Some(bank),
            _ => None,
        }
    }
}
