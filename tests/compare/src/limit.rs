//! The benchmark's hand-written library, asked in the same way as the proved one.

use model::{Call, Record};

use crate::request::{Given, Request, State};

/// What it gives, or nothing if it has no such call.
pub fn ask(state: &mut State, request: &Request) -> Option<Given> {
    let (record, cells) = state.parts();
    let mut given = Given::before(request);
    // The pointers come from live references of exactly these lengths.
    given.result = match request {
        Request::Map(address) => unsafe {
            limit::limit_map(&record.bytes, *address, &mut given.numbers)
        },
        Request::WideFlip { address, bit } => flip(record, cells, *address, *bit),
        Request::Listed(Call::Flip { address, bit }) => {
            flip(record, cells, *address, (*bit).into())
        }
        Request::Listed(call) => listed(record, cells, call, &mut given)?,
        _ => return None,
    };
    Some(given)
}

fn flip(record: &Record, cells: &mut [u8], address: u32, bit: u32) -> u32 {
    let (pointer, length) = (cells.as_mut_ptr(), cells.len());
    unsafe { limit::limit_flip(&record.bytes, pointer, length, address, bit) }
}

/// What a call that has an answer returns.
fn listed(record: &mut Record, cells: &mut [u8], call: &Call, given: &mut Given) -> Option<u32> {
    let registers = &mut record.bytes;
    let (pointer, length) = (cells.as_mut_ptr(), cells.len());
    let (buffer, answer) = given.lent();
    let (to, count) = (buffer.as_mut_ptr(), buffer.len());
    Some(unsafe {
        match call {
            Call::Read { address, .. } => {
                limit::limit_read(registers, pointer, length, *address, to, count, answer)
            }
            Call::BurstRead { address, .. } => {
                limit::limit_burst_read(registers, pointer, length, *address, to, count, answer)
            }
            Call::Write { address, bytes } => {
                let (from, count) = (bytes.as_ptr(), bytes.len());
                limit::limit_write(registers, pointer, length, *address, from, count, answer)
            }
            Call::BurstWrite { address, bytes } => {
                let (from, count) = (bytes.as_ptr(), bytes.len());
                limit::limit_burst_write(registers, pointer, length, *address, from, count, answer)
            }
            Call::Scrub { address } => {
                limit::limit_scrub(registers, pointer, length, *address, answer)
            }
            _ => return None,
        }
    })
}
