//! The offsets of the registers. A bank is 0 to 7, bit 0 is the lowest, and a megabyte is 2^20 bytes.
//!
//! Those up to [`BANK_ENABLE`], and the row codes, can be written only while memory is off.

/// The start of bank 0 in megabytes, low eight bits; that of bank n is n further on.
pub const START: u32 = 0x80;

/// Bits 8 and 9 of the start of bank 0, a value of 0 to 3; that of bank n is n further on.
pub const START_EXTENDED: u32 = 0x88;

/// The last megabyte of bank 0, inclusive, low eight bits; that of bank n is n further on.
pub const END: u32 = 0x90;

/// Bits 8 and 9 of the last megabyte of bank 0, a value of 0 to 3; that of bank n is n further on.
pub const END_EXTENDED: u32 = 0x98;

/// Bit n enables bank n.
pub const BANK_ENABLE: u32 = 0xa0;

/// Each [`Kind::Corrected`](crate::Kind::Corrected) adds one to it, up to 255.
pub const SINGLE_BIT_COUNTER: u32 = 0xb8;

/// The value of the counter at which bit 2 of [`ERROR_DETECTION_1`] is set.
pub const SINGLE_BIT_TRIGGER: u32 = 0xb9;

/// Bits 5 and 2 let the same bits of [`ERROR_DETECTION_1`] be set; its other bits do nothing.
pub const ERROR_ENABLE_1: u32 = 0xc0;

/// Bit 5: a part of a read, write, scrub or burst found no bank. Bit 2: the counter rose and was then equal to the
/// trigger. A bit that is 1 in what is written is cleared.
pub const ERROR_DETECTION_1: u32 = 0xc1;

/// Bit 3 lets the same bit of [`ERROR_DETECTION_2`] be set; its other bits do nothing.
pub const ERROR_ENABLE_2: u32 = 0xc4;

/// Bit 3: a doubleword was uncorrectable. It is cleared in the same way.
pub const ERROR_DETECTION_2: u32 = 0xc5;

/// The lowest of four bytes, read only: the address, as it was given, of the last call that set a bit of
/// [`ERROR_DETECTION_1`] or [`ERROR_DETECTION_2`] while all bits of both were zero. Each part of a split read or write
/// and each beat of a burst counts as a call here, with its own address.
pub const ERROR_ADDRESS: u32 = 0xc8;

/// Bits 2n and 2n + 1 are the row code of bank n, with n from 0 to 3; those of banks 4 to 7 are at the next offset. Codes 0,
/// 1, 2 mean 9, 10, 11 row bits. With code 3 a bank has 12 row bits if its length is at most 128 megabytes, and 13
/// otherwise. The longest bank of code 0, 1, 2, 3 has 2, 8, 32, 256 megabytes.
pub const ROW_CODES: u32 = 0xf0;

/// Bit 3 switches memory on: write 8 for on, 0 for off, and no other value.
pub const MEMORY: u32 = 0xf2;
