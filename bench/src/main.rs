//! The proved library beside the independent model and a hand-written library (`limit`), in one run.
//!
//! Method: all three are built for release. For a row, each side makes the same calls in the same order, by turns: 2,048 calls without a clock
//! and then 2,048 that are timed, ours first. Nine such turns make a pass, and there are five passes over the whole table. So the turns of a row
//! are spread over the run, and a busy moment of the machine spoils at most one pass. The table has the least time of all turns.
//!
//! Each side has a record, cells and a buffer of its own, the same at the start of a row. All cells are lent. The addresses of a row's
//! memory calls are random within 1,024 doublewords at the start of one bank, the lowest or the highest, so that calls are timed and not the
//! caches. These doublewords hold random bytes; in rows of corrected reads each has one bit inverted, and in rows of uncorrectable reads two.
//! Error reporting is enabled. After a row, record, buffer and those cells must be equal on all sides, and so must the last answer of ours and of
//! the limit, its flip bits included.
//!
//! The row of corrected scrubs makes 1,024 calls at a time, one for each doubleword, and before these, without a clock, the cells get their inverted
//! bits back. Three tables have the time of a call that finds a cell corrected or uncorrectable divided by that of the same call on clean cells, on
//! each side.
//!
//! A split starts inside one of these doublewords, at any place but its first byte, and goes on in the next. In the row with a corrected part, every
//! second doubleword has one bit inverted. Two tables have the time of a split divided by that of a call that does the same to one cell, on each side.
//!
//! A burst starts at one of these doublewords and goes on within its line. In the row with a corrected beat, one doubleword of each line has one
//! bit inverted. The rows of four single calls go to the doublewords of the same bursts in the same order, and their time is that of all four;
//! the last two tables of calls have the time of a burst divided by it, on each side.
//!
//! The functions timed are not inlined into the loop: ours and the limit's are C functions of archives, called through the declarations of
//! `rust/src/ffi.rs` and of `bench/limit`, and the model's are in another crate.
mod bursts;
mod lines;
mod machine;
mod other;
mod rows;
mod scrubs;
mod setups;
mod table;

use table::Table;

const PASSES: usize = 5;

fn main() {
    let mut table = Table::new();
    for _ in 0..PASSES {
        table.begin_pass();
        rows::run(&mut table);
        other::run(&mut table);
    }
    table.print();
    for (row, other) in rows::RATIOS {
        table.print_ratios(row, other);
    }
    lines::print();
}
