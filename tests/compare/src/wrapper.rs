//! The Rust wrapper, asked in the same way as the C functions that it calls.

use model::Call;
use mpc106::{Answer, Kind, Record, Refusal};

use crate::request::{Given, Request, State};

/// What the wrapper gives, as what the C functions give; nothing for a call that
/// has no answer.
pub fn ask(state: &mut State, call: &Call) -> Option<Given> {
    let mut given = Given::before(&Request::Listed(call.clone()));
    let (model_record, cells) = state.parts();
    let mut record = Record::from_registers(model_record.bytes);
    let result = answered(&mut record, cells, call, given.lent_buffer())?;
    model_record.bytes = record.registers;
    match result {
        Ok(answer) => given.numbers = numbers(&answer),
        Err(refusal) => given.result = number(refusal),
    }
    Some(given)
}

fn answered(
    record: &mut Record,
    cells: &mut [u8],
    call: &Call,
    buffer: &mut [u8],
) -> Option<Result<Answer, Refusal>> {
    Some(match call {
        Call::Read { address, .. } => record.read(cells, *address, buffer),
        Call::Write { address, bytes } => record.write(cells, *address, bytes),
        Call::Scrub { address } => record.scrub(cells, *address),
        Call::BurstRead { address, .. } => record.burst_read(cells, *address, buffer),
        Call::BurstWrite { address, bytes } => record.burst_write(cells, *address, bytes),
        Call::Flip { .. } | Call::ReadRegister { .. } | Call::WriteRegister { .. } => return None,
    })
}

/// A number that the library never returns is told apart from all others.
fn number(refusal: Refusal) -> u32 {
    match refusal {
        Refusal::Unknown(_) => u32::MAX,
        known => known.number().into(),
    }
}

fn numbers(answer: &Answer) -> [u32; 5] {
    let mut numbers = [0; 5];
    numbers[0] = answer.parts().len() as u32;
    for (number, kind) in numbers[1..].iter_mut().zip(answer.kinds()) {
        *number = part(kind);
    }
    numbers
}

/// The kind in the low byte and the bit of a correction in the next. A part that
/// the library never gives is told apart from all others.
fn part(kind: Kind) -> u32 {
    match kind {
        Kind::Clean => 1,
        Kind::Corrected(bit) => 2 + 256 * u32::from(bit),
        Kind::Uncorrectable => 3,
        Kind::Stored => 4,
        Kind::NoBank => 5,
        Kind::Unknown(_) => u32::MAX,
    }
}
