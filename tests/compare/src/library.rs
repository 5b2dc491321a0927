//! The proved library through its C functions, as `rust/src/ffi.rs` declares
//! them.

use model::Record;
use mpc106::ffi;

// In each call below the pointers come from live references of exactly the
// lengths that the interface names, and none is kept by the library.

pub fn fresh(record: &mut Record) {
    unsafe { ffi::fresh(&mut record.bytes) }
}

pub fn judge(record: &Record) -> u32 {
    unsafe { ffi::judge(&record.bytes) }
}

pub fn cell_count(record: &Record, count: &mut [u32; 1]) -> u32 {
    unsafe { ffi::cell_count(&record.bytes, count) }
}

pub fn register_read(record: &Record, offset: u32, value: &mut [u8; 1]) -> u32 {
    unsafe { ffi::register_read(&record.bytes, offset, value) }
}

pub fn register_write(record: &mut Record, offset: u32, value: u8) -> u32 {
    unsafe { ffi::register_write(&mut record.bytes, offset, value) }
}

pub fn map(record: &Record, address: u32, place: &mut [u32; 5]) -> u32 {
    unsafe { ffi::map(&record.bytes, address, place) }
}

pub fn way_back(record: &Record, bank: u32, row: u32, column: u32, address: &mut [u32; 1]) -> u32 {
    unsafe { ffi::way_back(&record.bytes, bank, row, column, address) }
}

pub fn alike(first: &Record, second: &Record, alike: &mut [u32; 1]) -> u32 {
    unsafe { ffi::alike(&first.bytes, &second.bytes, alike) }
}

pub fn read(
    record: &mut Record,
    cells: &[u8],
    address: u32,
    buffer: &mut [u8],
    answer: &mut [u32; 5],
) -> u32 {
    let (pointer, length) = (buffer.as_mut_ptr(), buffer.len());
    unsafe {
        ffi::read(
            &mut record.bytes,
            cells.as_ptr(),
            cells.len(),
            address,
            pointer,
            length,
            answer,
        )
    }
}

pub fn write(
    record: &mut Record,
    cells: &mut [u8],
    address: u32,
    bytes: &[u8],
    answer: &mut [u32; 5],
) -> u32 {
    unsafe {
        ffi::write(
            &mut record.bytes,
            cells.as_mut_ptr(),
            cells.len(),
            address,
            bytes.as_ptr(),
            bytes.len(),
            answer,
        )
    }
}

pub fn flip(record: &Record, cells: &mut [u8], address: u32, bit: u32) -> u32 {
    let (pointer, length) = (cells.as_mut_ptr(), cells.len());
    unsafe { ffi::flip(&record.bytes, pointer, length, address, bit) }
}

pub fn scrub(record: &mut Record, cells: &mut [u8], address: u32, answer: &mut [u32; 5]) -> u32 {
    let (pointer, length) = (cells.as_mut_ptr(), cells.len());
    unsafe { ffi::scrub(&mut record.bytes, pointer, length, address, answer) }
}

pub fn burst_read(
    record: &mut Record,
    cells: &[u8],
    address: u32,
    buffer: &mut [u8],
    answer: &mut [u32; 5],
) -> u32 {
    let (pointer, length) = (buffer.as_mut_ptr(), buffer.len());
    unsafe {
        ffi::burst_read(
            &mut record.bytes,
            cells.as_ptr(),
            cells.len(),
            address,
            pointer,
            length,
            answer,
        )
    }
}

pub fn burst_write(
    record: &mut Record,
    cells: &mut [u8],
    address: u32,
    bytes: &[u8],
    answer: &mut [u32; 5],
) -> u32 {
    unsafe {
        ffi::burst_write(
            &mut record.bytes,
            cells.as_mut_ptr(),
            cells.len(),
            address,
            bytes.as_ptr(),
            bytes.len(),
            answer,
        )
    }
}
