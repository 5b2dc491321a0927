//! The functions of the archive, as `include/mpc106.h` declares them, for those who want numbers rather than
//! enums. A slice is lent as a pointer and its length.
//!
//! Each returns 0 if the call is accepted, and otherwise the number of the refusal in the low byte and the bank that
//! it is about in the next. What an accepted call gives is put in its last parameter: an answer is the number of its
//! parts and four parts, each with its kind in the low byte and, if it was corrected, its flip bit in the next; a place
//! is 1, bank, row, column and cell, or five zeros if there is no bank.
//!
//! # Safety
//!
//! Each pointer must point to as many bytes as the length after it says, and nothing that a call may change may overlap
//! anything else that it is lent.

/// Declares functions by a short name. In the archive `mpc106_vN_` stands before it, where N is the major version, here
/// that of this package; so an archive of another major version is not linked.
macro_rules! of_the_archive {
    ($(pub fn $name:ident($($parameter:ident: $kind:ty),* $(,)?) $(-> $result:ty)?;)*) => {
        extern "C" {
            $(
                #[link_name = concat!("mpc106_v", env!("CARGO_PKG_VERSION_MAJOR"), "_", stringify!($name))]
                pub fn $name($($parameter: $kind),*) $(-> $result)?;
            )*
        }
    };
}

of_the_archive! {
    pub fn fresh(registers: &mut [u8; 256]);
    pub fn judge(registers: &[u8; 256]) -> u32;
    pub fn cell_count(registers: &[u8; 256], count: &mut [u32; 1]) -> u32;
    pub fn register_read(registers: &[u8; 256], offset: u32, value: &mut [u8; 1]) -> u32;
    pub fn register_write(registers: &mut [u8; 256], offset: u32, value: u8) -> u32;
    pub fn map(registers: &[u8; 256], address: u32, place: &mut [u32; 5]) -> u32;
    pub fn way_back(
        registers: &[u8; 256],
        bank: u32,
        row: u32,
        column: u32,
        address: &mut [u32; 1],
    ) -> u32;
    pub fn alike(first: &[u8; 256], second: &[u8; 256], alike: &mut [u32; 1]) -> u32;
    pub fn read(
        registers: &mut [u8; 256],
        cells: *const u8,
        cells_length: usize,
        address: u32,
        buffer: *mut u8,
        buffer_length: usize,
        answer: &mut [u32; 5],
    ) -> u32;
    pub fn write(
        registers: &mut [u8; 256],
        cells: *mut u8,
        cells_length: usize,
        address: u32,
        bytes: *const u8,
        bytes_length: usize,
        answer: &mut [u32; 5],
    ) -> u32;
    pub fn flip(
        registers: &[u8; 256],
        cells: *mut u8,
        cells_length: usize,
        address: u32,
        bit: u32,
    ) -> u32;
    pub fn scrub(
        registers: &mut [u8; 256],
        cells: *mut u8,
        cells_length: usize,
        address: u32,
        answer: &mut [u32; 5],
    ) -> u32;
    pub fn burst_read(
        registers: &mut [u8; 256],
        cells: *const u8,
        cells_length: usize,
        address: u32,
        buffer: *mut u8,
        buffer_length: usize,
        answer: &mut [u32; 5],
    ) -> u32;
    pub fn burst_write(
        registers: &mut [u8; 256],
        cells: *mut u8,
        cells_length: usize,
        address: u32,
        bytes: *const u8,
        bytes_length: usize,
        answer: &mut [u32; 5],
    ) -> u32;
}
