//! Lists of calls, and their run on a record and lent cells.

use crate::answers::{Answer, Answers};
use crate::memory;
use crate::record::Record;
use crate::refusal::Refusal;

/// One call of a list.
#[derive(Clone, Debug, PartialEq, Eq)]
pub enum Call {
    /// A read into a buffer of that many bytes, lent to this read alone.
    Read {
        address: u32,
        count: usize,
    },
    Write {
        address: u32,
        bytes: Vec<u8>,
    },
    Flip {
        address: u32,
        bit: u8,
    },
    Scrub {
        address: u32,
    },
    /// A burst read into a buffer of that many bytes, lent to it alone.
    BurstRead {
        address: u32,
        count: usize,
    },
    BurstWrite {
        address: u32,
        bytes: Vec<u8>,
    },
    ReadRegister {
        offset: u8,
    },
    WriteRegister {
        offset: u8,
        value: u8,
    },
}

/// What is compared of a memory call. LIST-9: answers are compared with the bits
/// of their corrections.
#[derive(Clone, Debug, PartialEq, Eq)]
pub enum Outcome {
    Refused(Refusal),
    /// Of an accepted write or scrub; only a write can have two answers.
    Answered(Answers),
    /// Of an accepted read: the answers and the bytes put in its buffer.
    Read(Answers, Vec<u8>),
    /// LIST-9: a flip answers nothing more.
    Flipped,
    /// Of an accepted burst read: the answers and bytes in the order of beats.
    BurstRead([Answer; 4], Vec<u8>),
    /// Of an accepted burst write.
    BurstWritten([Answer; 4]),
}

/// Runs a list, each call on the state after the last. Register calls give
/// `None`: they are not compared.
pub fn run(record: &mut Record, cells: &mut [u8], calls: &[Call]) -> Vec<Option<Outcome>> {
    calls.iter().map(|call| step(record, cells, call)).collect()
}

/// Runs one call.
pub fn step(record: &mut Record, cells: &mut [u8], call: &Call) -> Option<Outcome> {
    let outcome = match call {
        Call::Read { address, count } => {
            let mut buffer = vec![0; *count];
            memory::read(record, cells, *address, &mut buffer)
                .map(|answers| Outcome::Read(answers, buffer))
        }
        Call::Write { address, bytes } => {
            memory::write(record, cells, *address, bytes).map(Outcome::Answered)
        }
        Call::Flip { address, bit } => {
            memory::flip(record, cells, *address, *bit).map(|()| Outcome::Flipped)
        }
        Call::Scrub { address } => memory::scrub(record, cells, *address)
            .map(|answer| Outcome::Answered(Answers::Single(answer))),
        Call::BurstRead { address, count } => {
            let mut buffer = vec![0; *count];
            memory::burst_read(record, cells, *address, &mut buffer)
                .map(|answers| Outcome::BurstRead(answers, buffer))
        }
        Call::BurstWrite { address, bytes } => {
            memory::burst_write(record, cells, *address, bytes).map(Outcome::BurstWritten)
        }
        Call::ReadRegister { offset } => {
            let _ = record.read_register(*offset);
            return None;
        }
        Call::WriteRegister { offset, value } => {
            let _ = record.write_register(*offset, *value);
            return None;
        }
    };
    Some(outcome.unwrap_or_else(Outcome::Refused))
}
