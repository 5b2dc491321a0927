//! The worked examples (EX-1 to EX-12) with the values of the specification,
//! banks that end near the limit of eight bits, splits, bursts and the bits of
//! corrections. Library and model are both asked, so that two that are wrong in
//! the same way don't pass.

mod bank_ends;
mod bursts;
mod lines;
mod memory;
mod places;
mod sides;
mod splits;

pub use bank_ends::bank_ends;
pub use bursts::bursts;
pub use lines::{lines, lines_with_bits};
pub use memory::memory_and_errors;
pub use places::{places_and_lengths, wide_numbers_and_cells};
pub use splits::splits;
