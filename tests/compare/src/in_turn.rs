//! MEM-16: a burst or a split against the library's own single calls, one for
//! each of its accesses.

use model::Call;

use crate::case::Case;
use crate::request::{Given, Request, State};
use crate::ways::is_split;

/// The call on the record and cells of a case. If it is refused there is
/// nothing to compare.
pub fn check(case: &Case, call: &Call) -> Result<(), String> {
    let request = Request::Listed(call.clone());
    let mut whole = State::new(case.record, &case.cells);
    let mut apart = whole.clone();
    let at_once = whole.ask_library(&request);
    if at_once.result != 0 {
        return Ok(());
    }
    let in_turn = one_by_one(&mut apart, &request, &accesses(call));
    match Given::difference(&at_once, &in_turn).or_else(|| State::difference(&whole, &apart)) {
        Some(text) => Err(format!("{case}, against single calls: {text}")),
        None => Ok(()),
    }
}

/// The single calls that the accesses of a call are; of a single call itself.
fn accesses(call: &Call) -> Vec<Call> {
    match call {
        Call::BurstRead { address, .. } => beats(*address)
            .map(|address| Call::Read { address, count: 8 })
            .collect(),
        Call::BurstWrite { address, bytes } => beats(*address)
            .zip(bytes.chunks(8))
            .map(|(address, bytes)| Call::Write {
                address,
                bytes: bytes.to_vec(),
            })
            .collect(),
        Call::Read { address, count } if is_split(*address, *count) => {
            read_parts(*address, *count).to_vec()
        }
        Call::Write { address, bytes } if is_split(*address, bytes.len()) => {
            write_parts(*address, bytes).to_vec()
        }
        single => vec![single.clone()],
    }
}

/// MEM-14: the addresses of the beats of a burst.
fn beats(address: u32) -> impl Iterator<Item = u32> {
    (0..4).map(move |beat| address / 32 * 32 + (address % 32 + 8 * beat) % 32)
}

/// MEM-17: how many bytes the first part of a split has, and where its second
/// part is. The split was accepted, so it does not pass the last address.
fn edge(address: u32) -> (usize, u32) {
    let first = 8 - address % 8;
    (first as usize, address + first)
}

fn read_parts(address: u32, count: usize) -> [Call; 2] {
    let (first, next) = edge(address);
    [(address, first), (next, count - first)].map(|(address, count)| Call::Read { address, count })
}

fn write_parts(address: u32, bytes: &[u8]) -> [Call; 2] {
    let (first, next) = edge(address);
    [(address, &bytes[..first]), (next, &bytes[first..])].map(|(address, bytes)| Call::Write {
        address,
        bytes: bytes.to_vec(),
    })
}

/// What the single calls give, put together as the answer of one call.
fn one_by_one(state: &mut State, request: &Request, calls: &[Call]) -> Given {
    let mut all = Given::before(request);
    let mut bytes = Vec::new();
    all.numbers = [0; 5];
    all.numbers[0] = calls.len() as u32;
    for (part, call) in (1..).zip(calls) {
        let mut given = state.ask_library(&Request::Listed(call.clone()));
        all.result = all.result.max(given.result);
        all.numbers[part] = given.numbers[1];
        bytes.extend_from_slice(given.lent_buffer());
    }
    all.lent_buffer().copy_from_slice(&bytes);
    all
}
