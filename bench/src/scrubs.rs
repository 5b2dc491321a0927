//! The rows of scrubs. A scrub stores a corrected cell again; so the cells are put back before the calls of each turn, without a clock and with one, and
//! the calls of the row with corrected cells go to each doubleword once.
use crate::machine::{used, Machine, Sides};
use crate::table::{each, Row, Table, Task};
use model::memory;
use mpc106::ffi;
use std::ops::Range;

pub fn row(table: &mut Table, row: Row, (a, b, c): Sides, cells: &Range<usize>) {
    let mut ours = restored(a, cells, |a, at| {
        let (cells, length) = (a.cells.as_mut_ptr(), a.cells.len());
        let (bytes, answer) = (&mut a.record.bytes, &mut a.numbers);
        // SAFETY: the pointer is to as many bytes as the length says.
        used(unsafe { ffi::scrub(bytes, cells, length, at, answer) });
    });
    let mut model = restored(b, cells, |b, at| {
        used(memory::scrub(&mut b.record, &mut b.cells, at));
    });
    let mut limit = restored(c, cells, |c, at| {
        let (cells, length) = (c.cells.as_mut_ptr(), c.cells.len());
        let (bytes, answer) = (&mut c.record.bytes, &mut c.numbers);
        // SAFETY: as above.
        used(unsafe { limit::limit_scrub(bytes, cells, length, at, answer) });
    });
    table.row(row, [Some(&mut ours), Some(&mut model), Some(&mut limit)]);
}

/// A side's call as a loop over its inputs, on cells that can be put back.
fn restored<'a>(
    machine: &'a mut Machine,
    cells: &'a Range<usize>,
    mut call: impl FnMut(&mut Machine, u32) + 'a,
) -> impl FnMut(Task) + 'a {
    let before = machine.cells[cells.clone()].to_vec();
    move |task: Task| match task {
        Task::Restore => machine.cells[cells.clone()].copy_from_slice(&before),
        Task::Calls(inputs) => each(inputs, |at| call(machine, at)),
    }
}
