//! One call, asked of the library and of the model.

use std::fmt;

use model::map::{self, Column, Row};
use model::{memory, Answer, Answers, Call, Record, Refusal};

use crate::answers::{self, Numbers, ACCEPTED, UNFILLED, UNFILLED_BYTE};
use crate::library;

/// Bytes past the end of what is lent. No call may touch them.
const GUARD: usize = 16;
const GUARD_BYTE: u8 = 0xA6;

/// A call of the C interface. The calls that may stand in a list (LIST-1) have
/// the model's own form, whose bits and offsets are bytes; the wide ones have
/// room for more.
#[derive(Clone, Debug, PartialEq, Eq)]
pub enum Request {
    Judge,
    CellCount,
    Map(u32),
    WayBack { bank: u32, row: u32, column: u32 },
    Alike(Box<Record>),
    WideFlip { address: u32, bit: u32 },
    WideGet { offset: u32 },
    WideSet { offset: u32, value: u8 },
    Listed(Call),
}

/// What the calls work on: one for the library and one for the model.
#[derive(Clone, PartialEq, Eq)]
pub struct State {
    pub record: Record,
    /// The lent cells with the guard after them.
    storage: Vec<u8>,
}

/// All that one call gives: what it returned, what it put in the lent numbers
/// and the lent byte, and the buffer of a read or burst read with the guard
/// after it.
#[derive(Clone, Debug, PartialEq, Eq)]
pub struct Given {
    pub result: u32,
    pub numbers: Numbers,
    pub value: u8,
    pub buffer: Vec<u8>,
}

impl State {
    pub fn new(record: Record, cells: &[u8]) -> Self {
        let mut storage = Vec::with_capacity(cells.len() + GUARD);
        storage.extend_from_slice(cells);
        storage.extend_from_slice(&[GUARD_BYTE; GUARD]);
        State { record, storage }
    }

    /// Zero cells. However many there are, only those touched take memory.
    pub fn zeroed(record: Record, length: usize) -> Self {
        let mut storage = vec![0; length + GUARD];
        storage[length..].fill(GUARD_BYTE);
        State { record, storage }
    }

    pub fn cells(&self) -> &[u8] {
        &self.storage[..self.storage.len() - GUARD]
    }

    pub fn parts(&mut self) -> (&mut Record, &mut [u8]) {
        let lent = self.storage.len() - GUARD;
        (&mut self.record, &mut self.storage[..lent])
    }

    /// Asks the proved library.
    pub fn ask_library(&mut self, request: &Request) -> Given {
        let (record, cells) = self.parts();
        let mut given = Given::before(request);
        let [first, ..] = given.numbers;
        let mut one = [first];
        given.result = match request {
            Request::Judge => library::judge(record),
            Request::CellCount => library::cell_count(record, &mut one),
            Request::Map(address) => library::map(record, *address, &mut given.numbers),
            Request::WayBack { bank, row, column } => {
                library::way_back(record, *bank, *row, *column, &mut one)
            }
            Request::Alike(other) => library::alike(record, other, &mut one),
            Request::WideFlip { address, bit } => library::flip(record, cells, *address, *bit),
            Request::WideGet { offset } => given.get_from_library(record, *offset),
            Request::WideSet { offset, value } => library::register_write(record, *offset, *value),
            Request::Listed(call) => given.library_call(record, cells, call),
        };
        if !request.fills_all() {
            given.numbers[0] = one[0];
        }
        given
    }

    /// Asks the model.
    pub fn ask_model(&mut self, request: &Request) -> Given {
        let (record, cells) = self.parts();
        let mut given = Given::before(request);
        match request {
            Request::Judge => given.accept(map::judge(record), |_, _| ()),
            Request::CellCount => given.accept(map::switched_on(record), |given, layout| {
                given.numbers = answers::one_number(layout.cells());
            }),
            Request::Map(address) => given.accept(map::map(record, *address), |given, place| {
                given.numbers = numbers_of_place(place);
            }),
            Request::WayBack { bank, row, column } => given.accept(
                map::way_back(record, narrow(*bank, u8::MAX), Row(*row), Column(*column)),
                |given, address| given.numbers = answers::one_number(address),
            ),
            Request::Alike(other) => given.accept(map::alike(record, other), |given, alike| {
                given.numbers = answers::one_number(u32::from(alike));
            }),
            Request::WideFlip { address, bit } => {
                let bit = narrow(*bit, u8::MAX);
                given.accept(memory::flip(record, cells, *address, bit), |_, ()| ());
            }
            Request::WideGet { offset } => given.get_from_model(record, narrow(*offset, 0)),
            Request::WideSet { offset, value } => {
                let offset = narrow(*offset, 0);
                given.accept(record.write_register(offset, *value), |_, ()| ());
            }
            Request::Listed(call) => given.model_call(record, cells, call),
        }
        given
    }

    /// How the two states differ, in words.
    pub fn difference(library: &State, model: &State) -> Option<String> {
        if library == model {
            return None;
        }
        let records = first_difference(&library.record.bytes, &model.record.bytes);
        let cells = first_difference(&library.storage, &model.storage);
        Some(match (records, cells) {
            (Some(at), _) => format!("record at {at}"),
            (None, Some(at)) => format!("lent cells at byte {at}"),
            (None, None) => "lengths".to_string(),
        })
    }
}

/// A number that the model takes as a byte; `beyond` stands for all numbers
/// that do not fit in one, since they get the same refusal.
fn narrow(number: u32, beyond: u8) -> u8 {
    u8::try_from(number).unwrap_or(beyond)
}

fn numbers_of_place(place: Option<map::Place>) -> Numbers {
    place.map_or([0; 5], |place| {
        let bank = u32::from(place.bank);
        [1, bank, place.row.0, place.column.0, place.cell]
    })
}

impl Request {
    /// Is lent five numbers, and not one.
    fn fills_all(&self) -> bool {
        self.has_answer() || matches!(self, Request::Map(_))
    }

    /// Gives an answer of one part or more.
    fn has_answer(&self) -> bool {
        matches!(
            self,
            Request::Listed(Call::Read { .. } | Call::Write { .. } | Call::Scrub { .. })
                | Request::Listed(Call::BurstRead { .. } | Call::BurstWrite { .. })
        )
    }

    /// Where the number stands that names the way of an accepted call.
    fn way_of(&self, given: &Given) -> u32 {
        match self {
            Request::Judge | Request::WideFlip { .. } | Request::WideSet { .. } => 0,
            Request::Listed(Call::Flip { .. } | Call::WriteRegister { .. }) => 0,
            Request::WideGet { .. } | Request::Listed(Call::ReadRegister { .. }) => {
                u32::from(given.value)
            }
            Request::Listed(_) => answers::digits_of_parts(given.numbers),
            _ => given.numbers[0],
        }
    }
}

impl Given {
    /// The bytes before the call; a refused call leaves them unchanged.
    pub fn before(request: &Request) -> Self {
        let buffer = match request {
            Request::Listed(Call::Read { count, .. } | Call::BurstRead { count, .. }) => {
                vec![GUARD_BYTE; count + GUARD]
            }
            _ => Vec::new(),
        };
        Given {
            result: 0,
            numbers: [UNFILLED; 5],
            value: UNFILLED_BYTE,
            buffer,
        }
    }

    /// The refusal, or `ACCEPTED` and what the call gave.
    pub fn way(&self, request: &Request) -> u32 {
        match self.result {
            0 => ACCEPTED + request.way_of(self),
            refused => refused,
        }
    }

    /// Notes what the model gives: its refusal, or what the function makes of
    /// an accepted call.
    fn accept<T>(&mut self, result: Result<T, Refusal>, fill: impl FnOnce(&mut Self, T)) {
        self.result = answers::of_result(&result);
        if let Ok(given) = result {
            fill(self, given);
        }
    }

    fn get_from_library(&mut self, record: &Record, offset: u32) -> u32 {
        let mut value = [self.value];
        let result = library::register_read(record, offset, &mut value);
        [self.value] = value;
        result
    }

    fn get_from_model(&mut self, record: &Record, offset: u8) {
        self.accept(record.read_register(offset), |given, value| {
            given.value = value;
        });
    }

    /// The parts of an answer: none if the call was refused or gives no answer.
    pub fn parts_of_answer(&self, request: &Request) -> &[u32] {
        let [count, parts @ ..] = &self.numbers;
        if self.result == 0 && request.has_answer() {
            &parts[..parts.len().min(*count as usize)]
        } else {
            &[]
        }
    }

    /// The part of the buffer that is lent to a read or burst read.
    pub fn lent_buffer(&mut self) -> &mut [u8] {
        let lent = self.buffer.len().saturating_sub(GUARD);
        &mut self.buffer[..lent]
    }

    /// The lent part of the buffer, and the lent numbers.
    pub fn lent(&mut self) -> (&mut [u8], &mut Numbers) {
        let lent = self.buffer.len().saturating_sub(GUARD);
        (&mut self.buffer[..lent], &mut self.numbers)
    }

    /// The part of the buffer that is lent, and the guard.
    fn parts(&self) -> (&[u8], &[u8]) {
        let lent = self.buffer.len().saturating_sub(GUARD);
        self.buffer.split_at(lent)
    }

    /// In words.
    pub fn shown(&self) -> String {
        let (lent, _) = self.parts();
        let filled = self
            .numbers
            .iter()
            .take_while(|&&number| number != UNFILLED);
        let mut parts = vec![match self.result {
            0 => "accepted".to_string(),
            refused => answers::shown(refused),
        }];
        parts.extend(filled.map(|number| format!("{number:08x}")));
        if self.value != UNFILLED_BYTE {
            parts.push(format!("{:02x}", self.value));
        }
        if !lent.is_empty() {
            parts.push(hex(lent));
        }
        parts.join(" ")
    }

    pub fn difference(library: &Given, model: &Given) -> Option<String> {
        if library == model {
            return None;
        }
        if library.parts().1 != model.parts().1 {
            return Some("bytes past the buffer's end".to_string());
        }
        Some(format!("{} / {}", library.shown(), model.shown()))
    }

    fn library_call(&mut self, record: &mut Record, cells: &mut [u8], call: &Call) -> u32 {
        let (buffer, answer) = self.lent();
        match call {
            Call::Read { address, .. } => library::read(record, cells, *address, buffer, answer),
            Call::Write { address, bytes } => {
                library::write(record, cells, *address, bytes, answer)
            }
            Call::Flip { address, bit } => library::flip(record, cells, *address, (*bit).into()),
            Call::Scrub { address } => library::scrub(record, cells, *address, answer),
            Call::BurstRead { address, .. } => {
                library::burst_read(record, cells, *address, buffer, answer)
            }
            Call::BurstWrite { address, bytes } => {
                library::burst_write(record, cells, *address, bytes, answer)
            }
            Call::ReadRegister { offset } => self.get_from_library(record, (*offset).into()),
            Call::WriteRegister { offset, value } => {
                library::register_write(record, (*offset).into(), *value)
            }
        }
    }

    fn model_call(&mut self, record: &mut Record, cells: &mut [u8], call: &Call) {
        let (buffer, _) = self.lent();
        let of_parts = |parts: Answers| answers::numbers_of_parts(parts.kinds());
        let of_beats = |beats: [Answer; 4]| answers::numbers_of_parts(&beats);
        let numbers = match call {
            Call::Read { address, .. } => {
                memory::read(record, cells, *address, buffer).map(of_parts)
            }
            Call::Write { address, bytes } => {
                memory::write(record, cells, *address, bytes).map(of_parts)
            }
            Call::Scrub { address } => memory::scrub(record, cells, *address)
                .map(|answer| answers::numbers_of_parts(&[answer])),
            Call::BurstRead { address, .. } => {
                memory::burst_read(record, cells, *address, buffer).map(of_beats)
            }
            Call::BurstWrite { address, bytes } => {
                memory::burst_write(record, cells, *address, bytes).map(of_beats)
            }
            Call::Flip { address, bit } => {
                return self.accept(memory::flip(record, cells, *address, *bit), |_, ()| ());
            }
            Call::ReadRegister { offset } => return self.get_from_model(record, *offset),
            Call::WriteRegister { offset, value } => {
                return self.accept(record.write_register(*offset, *value), |_, ()| ());
            }
        };
        self.accept(numbers, |given, numbers| given.numbers = numbers);
    }
}

fn first_difference(library: &[u8], model: &[u8]) -> Option<String> {
    let at = library.iter().zip(model).position(|(a, b)| a != b)?;
    Some(format!("{at:#x}: {:02x} / {:02x}", library[at], model[at]))
}

fn hex(bytes: &[u8]) -> String {
    bytes.iter().map(|byte| format!("{byte:02x}")).collect()
}

/// The bytes that are not zero, each with its index.
pub fn nonzero(bytes: &[u8]) -> String {
    let shown: Vec<String> = (0..)
        .zip(bytes)
        .filter(|&(_, &byte)| byte != 0)
        .map(|(at, byte): (usize, _)| format!("{at:02x}={byte:02x}"))
        .collect();
    format!("{{{}}}", shown.join(" "))
}

impl fmt::Display for Request {
    fn fmt(&self, f: &mut fmt::Formatter) -> fmt::Result {
        match self {
            Request::Judge => write!(f, "judge"),
            Request::CellCount => write!(f, "count of cells"),
            Request::Map(address) => write!(f, "map {address:08x}"),
            Request::WayBack { bank, row, column } => {
                write!(f, "way back of bank {bank} row {row} column {column}")
            }
            Request::Alike(other) => write!(f, "alike to {}", nonzero(&other.bytes)),
            Request::WideFlip { address, bit } => write!(f, "flip {address:08x} {bit}"),
            Request::WideGet { offset } => write!(f, "get {offset:02x}"),
            Request::WideSet { offset, value } => write!(f, "set {offset:02x} {value:02x}"),
            Request::Listed(call) => match call {
                Call::Read { address, count } => write!(f, "read {address:08x} {count}"),
                Call::Write { address, bytes } => write!(f, "write {address:08x} {}", hex(bytes)),
                Call::Flip { address, bit } => write!(f, "flip {address:08x} {bit}"),
                Call::Scrub { address } => write!(f, "scrub {address:08x}"),
                Call::BurstRead { address, count } => {
                    write!(f, "burst read {address:08x} {count}")
                }
                Call::BurstWrite { address, bytes } => {
                    write!(f, "burst write {address:08x} {}", hex(bytes))
                }
                Call::ReadRegister { offset } => write!(f, "get {offset:02x}"),
                Call::WriteRegister { offset, value } => write!(f, "set {offset:02x} {value:02x}"),
            },
        }
    }
}
