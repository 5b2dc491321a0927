//! Refusals: from the library's numbers to an enum.
use core::error::Error;
use core::fmt;

/// Why a call was refused. It left everything as it was; only of [`Refusal::Unknown`] this is not known. If two apply,
/// the lower number is returned, except that 10, 19 and 20 come before 9, and that switching on has the order given at
/// [`Record::judge`](crate::Record::judge).
#[derive(Clone, Copy, Debug, PartialEq, Eq, Hash)]
#[non_exhaustive]
pub enum Refusal {
    /// 1: the offset has no register.
    UnlistedOffset,
    /// 2: a write at C8 to CB.
    ReadOnly,
    /// 3: a value that the register does not take; extended bytes take 0 to 3, F2 takes 0 or 8.
    ValueOutOfRange,
    /// 4: a write at 80 to A0, F0 or F1 while memory is on.
    LockedWhileOn,
    /// 5: memory is off, or the record would not be switched on.
    NotReady,
    /// 6: a count of 0 or above 8.
    CountOutOfRange,
    /// 7: the bytes of a read or write run past the last address, FFFFFFFF.
    PassesLastAddress,
    /// 8: a flip of a bit above 71.
    BitOutOfRange,
    /// 9: a cell that the call needs is not wholly within the lent cells.
    NotLent,
    /// 10: a flip where no bank holds the address.
    FlipWithoutBank,
    /// 11: switching on with no bank enabled.
    NoBankEnabled,
    /// 12: this enabled bank starts above its end.
    StartAboveEnd(u8),
    /// 13: this enabled bank is too long for its rows.
    TooLong(u8),
    /// 14: this enabled bank shares a megabyte with a lower-numbered one.
    Overlap(u8),
    /// 15: the way back of a bank above 7, or of a disabled one.
    BankOff,
    /// 16: the way back of a row or column that the bank does not have.
    RowOrColumnTooLarge,
    /// 17: no address has that bank, row and column.
    NoAddress,
    /// 19: the address of a burst is no multiple of 8.
    Misaligned,
    /// 20: a burst of more or fewer than 32 bytes.
    NotCacheLine,
    /// A result that no version up to this one returns, so that another library was linked. Holds the number. Nothing is
    /// promised of such a call, not that it left anything as it was.
    Unknown(u32),
}

impl Refusal {
    /// The number of the refusal, 1 to 17, 19 or 20, or 0 if it is unknown.
    pub fn number(self) -> u8 {
        match self {
            Refusal::UnlistedOffset => 1,
            Refusal::ReadOnly => 2,
            Refusal::ValueOutOfRange => 3,
            Refusal::LockedWhileOn => 4,
            Refusal::NotReady => 5,
            Refusal::CountOutOfRange => 6,
            Refusal::PassesLastAddress => 7,
            Refusal::BitOutOfRange => 8,
            Refusal::NotLent => 9,
            Refusal::FlipWithoutBank => 10,
            Refusal::NoBankEnabled => 11,
            Refusal::StartAboveEnd(_) => 12,
            Refusal::TooLong(_) => 13,
            Refusal::Overlap(_) => 14,
            Refusal::BankOff => 15,
            Refusal::RowOrColumnTooLarge => 16,
            Refusal::NoAddress => 17,
            Refusal::Misaligned => 19,
            Refusal::NotCacheLine => 20,
            Refusal::Unknown(_) => 0,
        }
    }

    /// The bank that refusals 12 to 14 are about.
    pub fn bank(self) -> Option<u8> {
        match self {
            Refusal::StartAboveEnd(bank) | Refusal::TooLong(bank) | Refusal::Overlap(bank) => {
                Some(bank)
            }
            _ => None,
        }
    }

    /// Why the call was refused, in the words of the C header.
    pub fn text(self) -> &'static str {
        match self {
            Refusal::UnlistedOffset => "there is no register at this offset",
            Refusal::ReadOnly => "the error address at C8 to CB can only be read",
            Refusal::ValueOutOfRange => "an extended byte takes 0 to 3, and F2 takes 0 or 8",
            Refusal::LockedWhileOn => "the banks' registers can't be written while memory is on",
            Refusal::NotReady => "memory is off, or its banks would not be switched on",
            Refusal::CountOutOfRange => "the number of bytes is not 1 to 8",
            Refusal::PassesLastAddress => "the bytes run past the last address, FFFFFFFF",
            Refusal::BitOutOfRange => "the bit is above 71",
            Refusal::NotLent => "a cell that the call needs is not wholly within the lent cells",
            Refusal::FlipWithoutBank => {
                "there is no bit to flip: no enabled bank holds the address"
            }
            Refusal::NoBankEnabled => "no bank is enabled",
            Refusal::StartAboveEnd(_) => "an enabled bank starts above its end",
            Refusal::TooLong(_) => "an enabled bank is too long for its rows",
            Refusal::Overlap(_) => "an enabled bank meets another of lower number",
            Refusal::BankOff => "the bank is above 7 or not enabled",
            Refusal::RowOrColumnTooLarge => "the bank has no such row or column",
            Refusal::NoAddress => "no address has this bank, row and column",
            Refusal::Misaligned => "the address of the burst is not a multiple of 8",
            Refusal::NotCacheLine => "the number of bytes of the burst is not 32",
            Refusal::Unknown(_) => "a result that this crate doesn't know",
        }
    }
}

impl fmt::Display for Refusal {
    fn fmt(&self, f: &mut fmt::Formatter<'_>) -> fmt::Result {
        f.write_str(self.text())?;
        match (self, self.bank()) {
            (_, Some(bank)) => write!(f, " (bank {bank})"),
            (Refusal::Unknown(number), _) => write!(f, " ({number:#x})"),
            _ => Ok(()),
        }
    }
}

impl Error for Refusal {}

/// The refusal in a call's result; none if it is 0.
pub(crate) fn accepted(result: u32) -> Result<(), Refusal> {
    let [number, bank, ..] = result.to_le_bytes();
    Err(match (number, bank) {
        _ if result == 0 => return Ok(()),
        _ if result > 0xffff => Refusal::Unknown(result),
        (1, 0) => Refusal::UnlistedOffset,
        (2, 0) => Refusal::ReadOnly,
        (3, 0) => Refusal::ValueOutOfRange,
        (4, 0) => Refusal::LockedWhileOn,
        (5, 0) => Refusal::NotReady,
        (6, 0) => Refusal::CountOutOfRange,
        (7, 0) => Refusal::PassesLastAddress,
        (8, 0) => Refusal::BitOutOfRange,
        (9, 0) => Refusal::NotLent,
        (10, 0) => Refusal::FlipWithoutBank,
        (11, 0) => Refusal::NoBankEnabled,
        (12, bank) => Refusal::StartAboveEnd(bank),
        (13, bank) => Refusal::TooLong(bank),
        (14, bank) => Refusal::Overlap(bank),
        (15, 0) => Refusal::BankOff,
        (16, 0) => Refusal::RowOrColumnTooLarge,
        (17, 0) => Refusal::NoAddress,
        (19, 0) => Refusal::Misaligned,
        (20, 0) => Refusal::NotCacheLine,
        _ => Refusal::Unknown(result),
    })
}

#[cfg(test)]
mod tests {
    extern crate std;

    use super::*;
    use std::collections::BTreeSet;
    use std::string::ToString;

    fn refusal(result: u32) -> Refusal {
        accepted(result).expect_err("a refusal")
    }

    #[test]
    fn refusals_keep_their_number_and_bank() {
        for number in (1..=17).chain(19..=20) {
            let x = refusal(number);
            assert_eq!(u32::from(x.number()), number);
            assert_eq!(x.bank(), (12..=14).contains(&number).then_some(0));
        }
        for number in 12..=14 {
            assert_eq!(refusal(number + 7 * 256).bank(), Some(7));
        }
    }

    #[test]
    fn results_that_are_never_given_are_told_apart() {
        for result in [18, 21, 0x105, 0x113, 0x10005, 0x1_0000, u32::MAX] {
            assert_eq!(refusal(result), Refusal::Unknown(result));
        }
        assert_eq!(accepted(0), Ok(()));
    }

    #[test]
    fn each_refusal_has_a_sentence_of_its_own() {
        let texts: BTreeSet<&str> = (1..=20).map(|number| refusal(number).text()).collect();
        assert_eq!(texts.len(), 20);
        assert!(texts.iter().all(|text| !text.is_empty()));
    }

    #[test]
    fn what_is_shown_says_it_in_words() {
        assert_eq!(refusal(8).to_string(), "the bit is above 71");
        assert_eq!(
            refusal(13 + 5 * 256).to_string(),
            "an enabled bank is too long for its rows (bank 5)"
        );
        let error: std::boxed::Box<dyn std::error::Error> = refusal(9).into();
        assert_eq!(
            error.to_string(),
            "a cell that the call needs is not wholly within the lent cells"
        );
    }
}
