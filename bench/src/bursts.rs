//! The rows of bursts, and of the four single calls that go to the same doublewords in the same order.
use crate::machine::{used, Sides};
use crate::table::{over, Row, Table};
use model::memory;
use mpc106::{ffi, LINE_BYTES};

/// For each beat its place in the buffer and its address.
fn beats(at: u32) -> [(usize, u32); 4] {
    [0, 8, 16, 24].map(|distance| {
        let address = (at & !31) | ((at + distance) & 31);
        (distance as usize, address)
    })
}

pub fn read_row(table: &mut Table, row: Row, (a, b, c): Sides) {
    let mut ours = over(|at| {
        let (cells, length, buffer) = (a.cells.as_ptr(), a.cells.len(), a.buffer.as_mut_ptr());
        let (bytes, answer) = (&mut a.record.bytes, &mut a.numbers);
        // SAFETY: the pointers are to as many bytes as the lengths say.
        used(unsafe { ffi::burst_read(bytes, cells, length, at, buffer, LINE_BYTES, answer) });
    });
    let mut model = over(|at| {
        used(memory::burst_read(
            &mut b.record,
            &b.cells,
            at,
            &mut b.buffer,
        ))
    });
    let mut limit = over(|at| {
        let (cells, length, buffer) = (c.cells.as_ptr(), c.cells.len(), c.buffer.as_mut_ptr());
        let (bytes, answer) = (&mut c.record.bytes, &mut c.numbers);
        // SAFETY: as above.
        used(unsafe {
            limit::limit_burst_read(bytes, cells, length, at, buffer, LINE_BYTES, answer)
        });
    });
    table.row(row, [Some(&mut ours), Some(&mut model), Some(&mut limit)]);
}

pub fn write_row(table: &mut Table, row: Row, (a, b, c): Sides) {
    let mut ours = over(|at| {
        let (cells, length, buffer) = (a.cells.as_mut_ptr(), a.cells.len(), a.buffer.as_ptr());
        let (bytes, answer) = (&mut a.record.bytes, &mut a.numbers);
        // SAFETY: the pointers are to as many bytes as the lengths say.
        used(unsafe { ffi::burst_write(bytes, cells, length, at, buffer, LINE_BYTES, answer) });
    });
    let mut model = over(|at| {
        used(memory::burst_write(
            &mut b.record,
            &mut b.cells,
            at,
            &b.buffer,
        ))
    });
    let mut limit = over(|at| {
        let (cells, length, buffer) = (c.cells.as_mut_ptr(), c.cells.len(), c.buffer.as_ptr());
        let (bytes, answer) = (&mut c.record.bytes, &mut c.numbers);
        // SAFETY: as above.
        used(unsafe {
            limit::limit_burst_write(bytes, cells, length, at, buffer, LINE_BYTES, answer)
        });
    });
    table.row(row, [Some(&mut ours), Some(&mut model), Some(&mut limit)]);
}

pub fn four_reads_row(table: &mut Table, row: Row, (a, b, c): Sides) {
    let mut ours = over(|at| {
        for (place, at) in beats(at) {
            let (cells, length) = (a.cells.as_ptr(), a.cells.len());
            let buffer = a.buffer[place..place + 8].as_mut_ptr();
            let (bytes, answer) = (&mut a.record.bytes, &mut a.numbers);
            // SAFETY: the pointers are to as many bytes as the lengths say.
            used(unsafe { ffi::read(bytes, cells, length, at, buffer, 8, answer) });
        }
    });
    let mut model = over(|at| {
        for (place, at) in beats(at) {
            let buffer = &mut b.buffer[place..place + 8];
            used(memory::read(&mut b.record, &b.cells, at, buffer));
        }
    });
    let mut limit = over(|at| {
        for (place, at) in beats(at) {
            let (cells, length) = (c.cells.as_ptr(), c.cells.len());
            let buffer = c.buffer[place..place + 8].as_mut_ptr();
            let (bytes, answer) = (&mut c.record.bytes, &mut c.numbers);
            // SAFETY: as above.
            used(unsafe { limit::limit_read(bytes, cells, length, at, buffer, 8, answer) });
        }
    });
    table.row(row, [Some(&mut ours), Some(&mut model), Some(&mut limit)]);
}

pub fn four_writes_row(table: &mut Table, row: Row, (a, b, c): Sides) {
    let mut ours = over(|at| {
        for (place, at) in beats(at) {
            let (cells, length) = (a.cells.as_mut_ptr(), a.cells.len());
            let buffer = a.buffer[place..place + 8].as_ptr();
            let (bytes, answer) = (&mut a.record.bytes, &mut a.numbers);
            // SAFETY: the pointers are to as many bytes as the lengths say.
            used(unsafe { ffi::write(bytes, cells, length, at, buffer, 8, answer) });
        }
    });
    let mut model = over(|at| {
        for (place, at) in beats(at) {
            let bytes = &b.buffer[place..place + 8];
            used(memory::write(&mut b.record, &mut b.cells, at, bytes));
        }
    });
    let mut limit = over(|at| {
        for (place, at) in beats(at) {
            let (cells, length) = (c.cells.as_mut_ptr(), c.cells.len());
            let buffer = c.buffer[place..place + 8].as_ptr();
            let (bytes, answer) = (&mut c.record.bytes, &mut c.numbers);
            // SAFETY: as above.
            used(unsafe { limit::limit_write(bytes, cells, length, at, buffer, 8, answer) });
        }
    });
    table.row(row, [Some(&mut ours), Some(&mut model), Some(&mut limit)]);
}
