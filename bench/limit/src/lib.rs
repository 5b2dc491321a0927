//! The functions of `limit.c` and `bursts.c`. Each has the contract of the function of the proved library whose name ends in the same way.
#![no_std]

extern "C" {
    pub fn limit_read(
        registers: &mut [u8; 256],
        cells: *const u8,
        cells_length: usize,
        address: u32,
        buffer: *mut u8,
        buffer_length: usize,
        answer: &mut [u32; 5],
    ) -> u32;
    pub fn limit_write(
        registers: &mut [u8; 256],
        cells: *mut u8,
        cells_length: usize,
        address: u32,
        bytes: *const u8,
        bytes_length: usize,
        answer: &mut [u32; 5],
    ) -> u32;
    pub fn limit_flip(
        registers: &[u8; 256],
        cells: *mut u8,
        cells_length: usize,
        address: u32,
        bit: u32,
    ) -> u32;
    pub fn limit_scrub(
        registers: &mut [u8; 256],
        cells: *mut u8,
        cells_length: usize,
        address: u32,
        answer: &mut [u32; 5],
    ) -> u32;
    pub fn limit_burst_read(
        registers: &mut [u8; 256],
        cells: *const u8,
        cells_length: usize,
        address: u32,
        buffer: *mut u8,
        buffer_length: usize,
        answer: &mut [u32; 5],
    ) -> u32;
    pub fn limit_burst_write(
        registers: &mut [u8; 256],
        cells: *mut u8,
        cells_length: usize,
        address: u32,
        bytes: *const u8,
        bytes_length: usize,
        answer: &mut [u32; 5],
    ) -> u32;
    pub fn limit_map(registers: &[u8; 256], address: u32, place: &mut [u32; 5]) -> u32;
}
