//! The memory side of the MPC106: registers, banks, map, check code, memory
//! calls with splits and line bursts and their error registers, the flat machine
//! and the line program.
//!
//! This is a second implementation, written from the specification alone,
//! without looking at the first. Comments cite the rules of
//! docs/SPECIFICATION.md.

pub mod answers;
pub mod bursts;
pub mod calls;
pub mod code;
pub mod flat;
pub mod gen;
pub mod lines;
pub mod map;
pub mod memory;
pub mod record;
pub mod refusal;
mod splits;

pub use answers::{Answer, Answers};
pub use calls::{Call, Outcome};
pub use record::Record;
pub use refusal::Refusal;
