//! Offsets of the listed registers. If there is one register for each bank, the
//! constant is that of bank 0.

pub const START: u8 = 0x80;
pub const START_EXTENDED: u8 = 0x88;
pub const LAST: u8 = 0x90;
pub const LAST_EXTENDED: u8 = 0x98;
pub const BANK_ENABLES: u8 = 0xA0;
pub const COUNTER: u8 = 0xB8;
pub const TRIGGER: u8 = 0xB9;
pub const ERROR_ENABLE_1: u8 = 0xC0;
pub const ERROR_DETECTION_1: u8 = 0xC1;
pub const ERROR_ENABLE_2: u8 = 0xC4;
pub const ERROR_DETECTION_2: u8 = 0xC5;
pub const ERROR_ADDRESS: u8 = 0xC8;
pub const ERROR_ADDRESS_END: u8 = 0xCB;
pub const ROW_CODES_LOW: u8 = 0xF0;
pub const ROW_CODES_HIGH: u8 = 0xF1;
pub const SWITCH: u8 = 0xF2;
