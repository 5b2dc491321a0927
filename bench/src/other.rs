//! The rows of the other calls, with two banks: switching on, the map with addresses of no bank, the way back, and alike.
use crate::rows::CALLS;
use crate::setups;
use crate::table::{over, Row, Table};
use model::gen::Rng;
use model::map::{self, Column};
use mpc106::ffi;
use std::hint::black_box;

const GROUP: &str = "2 banks";

/// The number of calls in a turn of alike, which is slow in the model.
const FEW: usize = 8;

fn row<'a>(name: &'static str, inputs: &'a [u32]) -> Row<'a> {
    Row {
        group: GROUP,
        name,
        inputs,
    }
}

fn used<T>(answer: T) {
    black_box(answer);
}

pub fn run(table: &mut Table) {
    let off = setups::two_banks_off();
    let mut on = off;
    on.write_register(0xf2, 8).expect("switching on");
    let mut rng = Rng::new(106);
    // Within 8 megabytes, so that some addresses have no bank.
    let addresses: Vec<u32> = (0..CALLS).map(|_| rng.below(0x80_0000)).collect();
    switching_on(table, &off);
    map_row(table, &on, &addresses);
    way_back_row(table, &on, &addresses);
    alike_row(table, &on, &addresses[..FEW]);
}

// SAFETY, for all calls here: nothing is lent but records and numbers of the lengths that the types say.

fn switching_on(table: &mut Table, off: &model::Record) {
    let mut ours = over(|value| {
        let mut bytes = off.bytes;
        used(unsafe { ffi::register_write(&mut bytes, 0xf2, value as u8) });
        used(&bytes);
    });
    let mut model = over(|value| {
        let mut record = *off;
        used(record.write_register(0xf2, value as u8));
        used(&record);
    });
    table.row(
        row("switching on", &[8; CALLS]),
        [Some(&mut ours), Some(&mut model), None],
    );
}

fn map_row(table: &mut Table, on: &model::Record, addresses: &[u32]) {
    let mut place = [0; 5];
    let mut other = [0; 5];
    let mut ours = over(|at| used(unsafe { ffi::map(&on.bytes, at, &mut place) }));
    let mut model = over(|at| used(map::map(on, at)));
    let mut limit = over(|at| used(unsafe { limit::limit_map(&on.bytes, at, &mut other) }));
    table.row(
        row("map, some with no bank", addresses),
        [Some(&mut ours), Some(&mut model), Some(&mut limit)],
    );
}

fn way_back_row(table: &mut Table, on: &model::Record, addresses: &[u32]) {
    let mut address = [0];
    let (row_of, column_of) = (|at: u32| at >> 13, |at: u32| at & 0x1ff);
    let mut ours = over(|at| {
        used(unsafe { ffi::way_back(&on.bytes, 1, row_of(at), column_of(at), &mut address) });
    });
    let mut model = over(|at| {
        used(map::way_back(
            on,
            1,
            map::Row(row_of(at)),
            Column(column_of(at)),
        ))
    });
    table.row(
        row("way back", addresses),
        [Some(&mut ours), Some(&mut model), None],
    );
}

fn alike_row(table: &mut Table, on: &model::Record, addresses: &[u32]) {
    let other = *on;
    let mut alike = [0];
    let mut ours = over(|_| {
        used(unsafe { ffi::alike(&on.bytes, &other.bytes, &mut alike) });
    });
    let mut model = over(|_| used(map::alike(on, &other)));
    table.row(
        row("alike", addresses),
        [Some(&mut ours), Some(&mut model), None],
    );
}
