//! The ways that calls go: refusals, kinds of answers and flip bits. Tests note
//! which of them occurred.

use model::code::FLIP_BITS;
use model::Call;

use crate::answers::{self, ACCEPTED};
use crate::request::{Given, Request};

/// The kind of a call and its outcome.
pub type Met = (&'static str, u32);

/// Added to the number of a part and its flip bit, so that they are told from
/// the ways of accepted calls.
const CORRECTED_AT: u32 = 0x100_0000;

/// MEM-17: a read or write that runs into the next doubleword, or past the last
/// address. One whose count gets refusal 6 is none.
pub fn is_split(address: u32, count: usize) -> bool {
    (1..=8).contains(&count) && address as usize % 8 + count > 8
}

fn name(request: &Request) -> &'static str {
    match request {
        Request::Judge => "judge",
        Request::CellCount => "count",
        Request::Map(_) => "map",
        Request::WayBack { bank, .. } if *bank > 255 => "wide way back",
        Request::WayBack { .. } => "way back",
        Request::Alike(_) => "alike",
        Request::WideFlip { .. } => "wide flip",
        Request::WideGet { .. } => "wide get",
        Request::WideSet { .. } => "wide set",
        Request::Listed(Call::Read { address, count }) if is_split(*address, *count) => {
            "split read"
        }
        Request::Listed(Call::Write { address, bytes }) if is_split(*address, bytes.len()) => {
            "split write"
        }
        Request::Listed(Call::Read { .. }) => "read",
        Request::Listed(Call::Write { .. }) => "write",
        Request::Listed(Call::Flip { .. }) => "flip",
        Request::Listed(Call::Scrub { .. }) => "scrub",
        Request::Listed(Call::BurstRead { .. }) => "burst read",
        Request::Listed(Call::BurstWrite { .. }) => "burst write",
        Request::Listed(Call::ReadRegister { .. }) => "get",
        Request::Listed(Call::WriteRegister { .. }) => "set",
    }
}

/// A register's value, a count of cells, an address and the bank of a refusal
/// don't name a way of their own.
pub fn met(request: &Request, way: u32) -> Met {
    let kind = name(request);
    let way = match way {
        refused if refused < ACCEPTED => refused % 256,
        _ if matches!(kind, "get" | "count" | "way back") => ACCEPTED,
        accepted => accepted,
    };
    (kind, way)
}

/// Accepted calls of that many parts, each part of each of these kinds.
pub fn mixtures(
    kind: &'static str,
    parts: u32,
    kinds: &'static [u32],
) -> impl Iterator<Item = Met> {
    let of_part = |digits: u32, part: u32| digits >> (4 * part) & 0xF;
    (0..1 << (4 * parts))
        .filter(move |&digits| (0..parts).all(|part| kinds.contains(&of_part(digits, part))))
        .map(move |digits| (kind, ACCEPTED + digits))
}

/// All outcomes of one kind of call that a test must cover.
pub fn ways(
    kind: &'static str,
    accepted: &'static [u32],
    refused: &'static [u32],
) -> impl Iterator<Item = Met> {
    let accepted = accepted.iter().map(|given| ACCEPTED + given);
    let refused = refused.iter().copied();
    accepted.chain(refused).map(move |way| (kind, way))
}

/// The flip bit of each part of an answer that was corrected.
pub fn met_bits<'a>(request: &'a Request, given: &'a Given) -> impl Iterator<Item = Met> + 'a {
    let parts = (0..).zip(given.parts_of_answer(request));
    parts.filter_map(|(place, &part)| {
        answers::flip_bit(part).map(|bit| (name(request), corrected_at(place, bit)))
    })
}

fn corrected_at(place: u32, bit: u32) -> u32 {
    CORRECTED_AT + place * 0x1_0000 + bit
}

/// Every flip bit at each part of a call of that many parts.
pub fn every_bit(kind: &'static str, parts: u32) -> impl Iterator<Item = Met> {
    (0..parts).flat_map(move |place| {
        (0..u32::from(FLIP_BITS)).map(move |bit| (kind, corrected_at(place, bit)))
    })
}

/// Every flip bit at reads, short writes and scrubs of one part.
pub fn every_bit_of_single_calls() -> impl Iterator<Item = Met> {
    ["read", "write", "scrub"]
        .into_iter()
        .flat_map(|kind| every_bit(kind, 1))
}
