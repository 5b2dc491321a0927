//! The register record: 256 bytes, the fields of a bank, and the register
//! calls.

pub mod offset;

use crate::map;
use crate::refusal::Refusal;
use offset::*;

/// Number of banks.
pub const BANKS: u8 = 8;

/// The row code that means 12 row bits, or 13 for a long bank.
const LONG_ROW_CODE: u8 = 3;

/// REG-13: the longest bank in MB that has 12 row bits with that code.
const LONGEST_OF_12_ROW_BITS: u32 = 128;

/// REG-16
pub const SWITCH_ON: u8 = 1 << 3;

/// REG-1. The bytes are public, since a record may be made by hand (ON-7).
#[derive(Clone, Copy, Debug, PartialEq, Eq)]
pub struct Record {
    pub bytes: [u8; 256],
}

impl Record {
    /// REG-1: a fresh record.
    pub fn fresh() -> Self {
        Record { bytes: [0; 256] }
    }

    /// The byte at an offset as it stands, listed or not.
    pub fn at(&self, offset: u8) -> u8 {
        self.bytes[usize::from(offset)]
    }

    /// Puts a byte at an offset without any judgement.
    pub fn set(&mut self, offset: u8, value: u8) {
        self.bytes[usize::from(offset)] = value;
    }

    /// REG-16: memory is on by bit 3 of F2 alone.
    pub fn is_on(&self) -> bool {
        self.at(SWITCH) & SWITCH_ON != 0
    }

    /// REG-7
    pub fn is_enabled(&self, bank: u8) -> bool {
        self.at(BANK_ENABLES) >> bank & 1 == 1
    }

    /// Start of a bank in MB.
    pub fn start_mb(&self, bank: u8) -> u32 {
        self.ten_bits(START + bank, START_EXTENDED + bank)
    }

    /// Last MB of a bank, inclusive.
    pub fn last_mb(&self, bank: u8) -> u32 {
        self.ten_bits(LAST + bank, LAST_EXTENDED + bank)
    }

    /// REG-4, REG-5, REG-6: a number of megabytes.
    fn ten_bits(&self, low: u8, extended: u8) -> u32 {
        u32::from(self.at(low)) | u32::from(self.at(extended) & 3) << 8
    }

    /// REG-15: the length of a bank in MB; 0 if it starts above its end.
    pub fn length_mb(&self, bank: u8) -> u32 {
        (self.last_mb(bank) + 1).saturating_sub(self.start_mb(bank))
    }

    /// REG-12: the two bits of a bank.
    pub fn row_code(&self, bank: u8) -> u8 {
        let codes = if bank < 4 {
            self.at(ROW_CODES_LOW)
        } else {
            self.at(ROW_CODES_HIGH)
        };
        codes >> (2 * (bank % 4)) & 3
    }

    /// REG-13: R, the number of row bits. It depends on the length too: one row
    /// code stands for two sizes of modules.
    pub fn row_bits(&self, bank: u8) -> u32 {
        let code = self.row_code(bank);
        let is_long = code == LONG_ROW_CODE && self.length_mb(bank) > LONGEST_OF_12_ROW_BITS;
        9 + u32::from(code) + u32::from(is_long)
    }

    /// Register read: the byte as it stands, or refusal 1.
    pub fn read_register(&self, offset: u8) -> Result<u8, Refusal> {
        if is_listed(offset) {
            Ok(self.at(offset))
        } else {
            Err(Refusal::OffsetNotListed)
        }
    }

    /// Register write: refusals 1 to 4, and 11 to 14 for switching on. A
    /// refused write leaves the record as it was.
    pub fn write_register(&mut self, offset: u8, value: u8) -> Result<(), Refusal> {
        self.check_write(offset, value)?;
        match offset {
            // REG-10
            ERROR_DETECTION_1 | ERROR_DETECTION_2 => self.set(offset, self.at(offset) & !value),
            _ => self.set(offset, value),
        }
        Ok(())
    }

    /// REF-102, REF-104: in the order of their numbers.
    fn check_write(&self, offset: u8, value: u8) -> Result<(), Refusal> {
        if !is_listed(offset) {
            return Err(Refusal::OffsetNotListed);
        }
        if (ERROR_ADDRESS..=ERROR_ADDRESS_END).contains(&offset) {
            return Err(Refusal::ReadOnly);
        }
        if !is_allowed_value(offset, value) {
            return Err(Refusal::BadValue);
        }
        if self.is_on() && is_locked_while_on(offset) {
            return Err(Refusal::LockedWhileOn);
        }
        // ON-4, ON-5: only switching on judges the banks.
        if offset == SWITCH && value == SWITCH_ON && !self.is_on() {
            map::judge(self)?;
        }
        Ok(())
    }
}

/// REG-2: the offsets that have a register.
pub fn is_listed(offset: u8) -> bool {
    matches!(
        offset,
        START..=BANK_ENABLES
            | COUNTER
            | TRIGGER
            | ERROR_ENABLE_1
            | ERROR_DETECTION_1
            | ERROR_ENABLE_2
            | ERROR_DETECTION_2
            | ERROR_ADDRESS..=ERROR_ADDRESS_END
            | ROW_CODES_LOW..=SWITCH
    )
}

/// The extended bytes of starts (88 to 8F) and of ends (98 to 9F).
pub fn is_extended(offset: u8) -> bool {
    matches!(offset, 0x88..=0x8F | 0x98..=0x9F)
}

/// REF-3
fn is_allowed_value(offset: u8, value: u8) -> bool {
    if is_extended(offset) {
        value <= 3
    } else if offset == SWITCH {
        value == 0 || value == SWITCH_ON
    } else {
        true
    }
}

/// REF-4
fn is_locked_while_on(offset: u8) -> bool {
    matches!(
        offset,
        START..=BANK_ENABLES | ROW_CODES_LOW | ROW_CODES_HIGH
    )
}

#[cfg(test)]
mod tests {
    use super::*;

    #[test]
    fn listed_offsets_are_those_of_the_table() {
        let mut listed: Vec<u8> = (0x80..=0xA0).collect();
        listed.extend([0xB8, 0xB9, 0xC0, 0xC1, 0xC4, 0xC5]);
        listed.extend([0xC8, 0xC9, 0xCA, 0xCB, 0xF0, 0xF1, 0xF2]);
        let record = Record::fresh();
        for offset in 0..=255 {
            let expected = if listed.contains(&offset) {
                Ok(0)
            } else {
                Err(Refusal::OffsetNotListed)
            };
            assert_eq!(record.read_register(offset), expected, "{offset:02x}");
        }
    }

    #[test]
    fn fields_of_a_bank() {
        let mut record = Record::fresh();
        record.set(0x85, 0x12);
        record.set(0x8D, 0xFE);
        record.set(0x95, 0xFF);
        record.set(0x9D, 0x03);
        record.set(0xA0, 0x20);
        record.set(0xF0, 0b11_10_01_00);
        record.set(0xF1, 0b00_01_10_11);
        assert_eq!(record.start_mb(5), 0x212);
        assert_eq!(record.last_mb(5), 1023);
        let enabled: Vec<u8> = (0..8).filter(|&n| record.is_enabled(n)).collect();
        assert_eq!(enabled, [5]);
        let rows: Vec<u32> = (0..8).map(|n| record.row_bits(n)).collect();
        assert_eq!(rows, [9, 10, 11, 12, 12, 11, 10, 9]);
    }

    #[test]
    fn writing_a_one_clears_a_detection_bit() {
        let mut record = Record::fresh();
        record.set(0xC1, 0b0010_0100);
        record.set(0xC5, 0b0000_1000);
        assert_eq!(record.write_register(0xC1, 0b1000_0100), Ok(()));
        assert_eq!(record.write_register(0xC5, 0b1111_0111), Ok(()));
        assert_eq!(record.at(0xC1), 0b0010_0000);
        assert_eq!(record.at(0xC5), 0b0000_1000);
    }

    #[test]
    fn a_write_of_8_while_on_stores_8_and_checks_nothing() {
        let mut record = Record::fresh();
        record.set(SWITCH, 0xFB);
        assert_eq!(record.write_register(SWITCH, 8), Ok(()));
        assert_eq!(record.at(SWITCH), 8);
        assert_eq!(record.write_register(SWITCH, 0), Ok(()));
        assert_eq!(record.write_register(SWITCH, 0), Ok(()));
        assert_eq!(record.write_register(SWITCH, 8), Err(Refusal::NoneEnabled));
    }

    #[test]
    fn a_bad_value_goes_before_the_lock() {
        let mut record = Record::fresh();
        record.set(SWITCH, 8);
        assert_eq!(record.write_register(0x88, 4), Err(Refusal::BadValue));
        assert_eq!(record.write_register(0x88, 3), Err(Refusal::LockedWhileOn));
        assert_eq!(record.write_register(0xA0, 0), Err(Refusal::LockedWhileOn));
        assert_eq!(
            record.write_register(0xA1, 0),
            Err(Refusal::OffsetNotListed)
        );
    }
}
