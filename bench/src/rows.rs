//! The rows of memory calls and of the map, for each set-up.
use crate::bursts;
use crate::machine::{is_corrected, is_same, machine, touched, used, Flips, Sides, DOUBLEWORDS};
use crate::scrubs;
use crate::setups::{self, Setup};
use crate::table::{over, Row, Table};
use model::gen::Rng;
use model::memory;
use mpc106::ffi;

/// The number of calls in a turn.
pub const CALLS: usize = 2048;

/// What a row calls, on each side.
#[derive(Clone, Copy)]
enum Call {
    Read(usize),
    Write(usize),
    SplitRead,
    SplitWrite,
    Scrub,
    CorrectedScrub,
    Flip,
    Map,
    BurstRead,
    BurstWrite,
    FourReads,
    FourWrites,
}

const READ: &str = "read of 8";
const CORRECTED_READ: &str = "read of 8, corrected";
const UNCORRECTABLE_READ: &str = "read of 8, uncorrectable";
const SHORT_WRITE: &str = "write of 1";
const SCRUB: &str = "scrub";
const CORRECTED_SCRUB: &str = "scrub, corrected";
const SPLIT_READ: &str = "split read of 8";
const SPLIT_WRITE: &str = "split write of 8";
const BURST_READ: &str = "burst read";
const BURST_WRITE: &str = "burst write";
const FOUR_READS: &str = "four reads of 8";
const FOUR_WRITES: &str = "four writes of 8";

/// Calls that find their cell corrected or uncorrectable beside the same calls on clean cells, each split beside a call of one part that does the same
/// to its cell, and each burst beside the single calls that it replaces.
pub const RATIOS: [(&str, &str); 7] = [
    (CORRECTED_READ, READ),
    (UNCORRECTABLE_READ, READ),
    (CORRECTED_SCRUB, SCRUB),
    (SPLIT_READ, READ),
    (SPLIT_WRITE, SHORT_WRITE),
    (BURST_READ, FOUR_READS),
    (BURST_WRITE, FOUR_WRITES),
];

const ROWS: [(&str, Call, Flips); 18] = [
    (READ, Call::Read(8), Flips::None),
    ("read of 1", Call::Read(1), Flips::None),
    (CORRECTED_READ, Call::Read(8), Flips::One),
    (UNCORRECTABLE_READ, Call::Read(8), Flips::Two),
    ("write of 8", Call::Write(8), Flips::None),
    (SHORT_WRITE, Call::Write(1), Flips::None),
    (SPLIT_READ, Call::SplitRead, Flips::None),
    (
        "split read of 8, one part corrected",
        Call::SplitRead,
        Flips::OneOfTwo,
    ),
    (SPLIT_WRITE, Call::SplitWrite, Flips::None),
    (SCRUB, Call::Scrub, Flips::None),
    (CORRECTED_SCRUB, Call::CorrectedScrub, Flips::One),
    ("flip", Call::Flip, Flips::None),
    ("map", Call::Map, Flips::None),
    (BURST_READ, Call::BurstRead, Flips::None),
    (
        "burst read, one beat corrected",
        Call::BurstRead,
        Flips::OneInLine,
    ),
    (BURST_WRITE, Call::BurstWrite, Flips::None),
    (FOUR_READS, Call::FourReads, Flips::None),
    (FOUR_WRITES, Call::FourWrites, Flips::None),
];

pub fn run(table: &mut Table) {
    for setup in setups::all() {
        for (name, call, flips) in ROWS {
            row(table, &setup, name, call, flips);
        }
    }
}

fn row(table: &mut Table, setup: &Setup, name: &'static str, call: Call, flips: Flips) {
    let inputs = addresses(setup, call);
    let [mut a, mut b, mut c] = [0; 3].map(|_| machine(setup, flips));
    let row = Row {
        group: setup.name,
        name,
        inputs: &inputs,
    };
    let touched = touched(setup);
    let sides = (&mut a, &mut b, &mut c);
    match call {
        Call::Read(n) => read_row(table, row, sides, n),
        Call::Write(n) => write_row(table, row, sides, n),
        Call::SplitRead => read_row(table, row, sides, 8),
        Call::SplitWrite => write_row(table, row, sides, 8),
        Call::Scrub | Call::CorrectedScrub => scrubs::row(table, row, sides, &touched),
        Call::Flip => flip_row(table, row, sides),
        Call::Map => map_row(table, row, sides),
        Call::BurstRead => bursts::read_row(table, row, sides),
        Call::BurstWrite => bursts::write_row(table, row, sides),
        Call::FourReads => bursts::four_reads_row(table, row, sides),
        Call::FourWrites => bursts::four_writes_row(table, row, sides),
    }
    if matches!(flips, Flips::One) {
        assert!(is_corrected(&a), "{}, {name}: the answer", setup.name);
    }
    assert!(
        is_same(&a, &b, &touched),
        "{}, {name}: the model",
        setup.name
    );
    assert!(
        is_same(&a, &c, &touched),
        "{}, {name}: the limit",
        setup.name
    );
}

/// A split starts inside a doubleword, and not in the last one, since it goes on in the next. A corrected scrub finds each doubleword once.
fn addresses(setup: &Setup, call: Call) -> Vec<u32> {
    let mut rng = Rng::new(106);
    if let Call::CorrectedScrub = call {
        return in_random_order(&mut rng, setup.address);
    }
    let mut address = || {
        let (inside, doublewords) = match call {
            Call::Read(8) | Call::Write(8) => (0, DOUBLEWORDS),
            Call::BurstRead | Call::BurstWrite | Call::FourReads | Call::FourWrites => {
                (0, DOUBLEWORDS)
            }
            Call::SplitRead | Call::SplitWrite => (1 + rng.below(7), DOUBLEWORDS - 1),
            _ => (rng.below(8), DOUBLEWORDS),
        };
        setup.address + 8 * rng.below(doublewords) + inside
    };
    (0..CALLS).map(|_| address()).collect()
}

/// An address in each of the doublewords, in random order.
fn in_random_order(rng: &mut Rng, first: u32) -> Vec<u32> {
    let mut addresses: Vec<u32> = (0..DOUBLEWORDS).map(|k| first + 8 * k + k % 8).collect();
    for left in (1..DOUBLEWORDS).rev() {
        addresses.swap(left as usize, rng.below(left + 1) as usize);
    }
    addresses
}

fn read_row(table: &mut Table, row: Row, (a, b, c): Sides, n: usize) {
    let mut ours = over(|at| {
        let (cells, length, buffer) = (a.cells.as_ptr(), a.cells.len(), a.buffer.as_mut_ptr());
        let (bytes, answer) = (&mut a.record.bytes, &mut a.numbers);
        // SAFETY: the pointers are to as many bytes as the lengths say.
        used(unsafe { ffi::read(bytes, cells, length, at, buffer, n, answer) });
    });
    let mut model = over(|at| {
        let buffer = &mut b.buffer[..n];
        used(memory::read(&mut b.record, &b.cells, at, buffer));
    });
    let mut limit = over(|at| {
        let (cells, length, buffer) = (c.cells.as_ptr(), c.cells.len(), c.buffer.as_mut_ptr());
        let (bytes, answer) = (&mut c.record.bytes, &mut c.numbers);
        // SAFETY: as above.
        used(unsafe { limit::limit_read(bytes, cells, length, at, buffer, n, answer) });
    });
    table.row(row, [Some(&mut ours), Some(&mut model), Some(&mut limit)]);
}

fn write_row(table: &mut Table, row: Row, (a, b, c): Sides, n: usize) {
    let mut ours = over(|at| {
        let (cells, length, buffer) = (a.cells.as_mut_ptr(), a.cells.len(), a.buffer.as_ptr());
        let (bytes, answer) = (&mut a.record.bytes, &mut a.numbers);
        // SAFETY: the pointers are to as many bytes as the lengths say.
        used(unsafe { ffi::write(bytes, cells, length, at, buffer, n, answer) });
    });
    let mut model = over(|at| {
        let bytes = &b.buffer[..n];
        used(memory::write(&mut b.record, &mut b.cells, at, bytes));
    });
    let mut limit = over(|at| {
        let (cells, length, buffer) = (c.cells.as_mut_ptr(), c.cells.len(), c.buffer.as_ptr());
        let (bytes, answer) = (&mut c.record.bytes, &mut c.numbers);
        // SAFETY: as above.
        used(unsafe { limit::limit_write(bytes, cells, length, at, buffer, n, answer) });
    });
    table.row(row, [Some(&mut ours), Some(&mut model), Some(&mut limit)]);
}

fn flip_row(table: &mut Table, row: Row, (a, b, c): Sides) {
    let mut ours = over(|at| {
        let (cells, length) = (a.cells.as_mut_ptr(), a.cells.len());
        // SAFETY: the pointer is to as many bytes as the length says.
        used(unsafe { ffi::flip(&a.record.bytes, cells, length, at, at % 72) });
    });
    let mut model = over(|at| {
        used(memory::flip(&b.record, &mut b.cells, at, (at % 72) as u8));
    });
    let mut limit = over(|at| {
        let (cells, length) = (c.cells.as_mut_ptr(), c.cells.len());
        // SAFETY: as above.
        used(unsafe { limit::limit_flip(&c.record.bytes, cells, length, at, at % 72) });
    });
    table.row(row, [Some(&mut ours), Some(&mut model), Some(&mut limit)]);
}

fn map_row(table: &mut Table, row: Row, (a, b, c): Sides) {
    // SAFETY: nothing is lent but the record and the place.
    let mut ours = over(|at| {
        used(unsafe { ffi::map(&a.record.bytes, at, &mut a.numbers) });
    });
    let mut model = over(|at| used(model::map::map(&b.record, at)));
    let mut limit = over(|at| {
        used(unsafe { limit::limit_map(&c.record.bytes, at, &mut c.numbers) });
    });
    table.row(row, [Some(&mut ours), Some(&mut model), Some(&mut limit)]);
}
