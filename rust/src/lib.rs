//! The memory side of the MPC106: registers, banks, cells and correction.
//!
//! A safe wrapper around the C functions that `include/mpc106.h` documents. All state is in what the caller
//! holds: the register [`Record`] and the cells, nine bytes for each doubleword of 8 bytes. [`Memory`] holds
//! both; the calls of [`Record`] take the cells as a slice, for those who keep them elsewhere. No call panics
//! on any input; what it cannot do it refuses, and a refused call leaves everything as it was. An answer that the
//! library never gives is no refusal: it has [`Kind::Unknown`].
//!
//! With fewer cells than [`Record::cell_count`] returns, memory calls to a higher cell get [`Refusal::NotLent`];
//! bytes after the last whole cell are ignored. Nine zero bytes are a valid cell that holds zeros.
//!
//! A read or a write is of 1 to 8 bytes. One that runs into the next doubleword is a split, and its answer has two
//! parts. [`Record::burst_read`] and [`Record::burst_write`] are of a cache line, and their answers have four parts.
//!
//! ```
//! use mpc106::{offset, Kind, Memory, Record};
//!
//! let mut record = Record::fresh();
//! record.write_register(offset::END, 1)?; // bank 0 ends at megabyte 1
//! record.write_register(offset::BANK_ENABLE, 1)?; // and is enabled
//! record.write_register(offset::MEMORY, 8)?; // memory on
//!
//! let mut memory = Memory::new(record)?;
//! assert_eq!(memory.write(0x10, &[1, 2, 3, 4, 5, 6, 7, 8])?.worst_kind(), Kind::Stored);
//! memory.flip(0x10, 2)?;
//! let mut buffer = [0; 2];
//! assert_eq!(memory.read(0x10, &mut buffer)?.worst_kind(), Kind::Corrected(2)); // bit 2 was wrong
//! assert_eq!(buffer, [1, 2]);
//! # Ok::<(), mpc106::Refusal>(())
//! ```
#![no_std]
#![warn(missing_docs)]

#[cfg(feature = "alloc")]
extern crate alloc;

mod answer;
mod board;
#[allow(missing_docs)]
pub mod ffi;
#[cfg(feature = "alloc")]
mod memory;
mod memory_calls;
pub mod offset;
mod record;
mod refusal;

pub use answer::{Answer, Kind, Part};
pub use board::LoadError;
#[cfg(feature = "alloc")]
pub use memory::Memory;
pub use record::{Column, Place, Record, Row};
pub use refusal::Refusal;

/// The number of bytes of a cell: eight data bytes in address order, then the check byte.
pub const CELL_BYTES: usize = 9;

/// The number of bytes of a cache line, which a burst reads or writes.
pub const LINE_BYTES: usize = 32;
