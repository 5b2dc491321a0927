//! Library and model, asked the same, each of them against the values that are
//! given.

use model::{Answer, Call, Record};

use crate::answers::{self, ACCEPTED};
use crate::request::{Given, Request, State};

pub struct Sides {
    pub library: State,
    pub model: State,
}

impl Sides {
    pub fn new(lent_cells: usize) -> Self {
        let library = State::zeroed(Record::fresh(), 9 * lent_cells);
        let model = library.clone();
        Sides { library, model }
    }

    /// A fresh record with these registers written, F2 last.
    pub fn with(lent_cells: usize, writes: &[(u8, u8)]) -> Result<Self, String> {
        let mut sides = Sides::new(lent_cells);
        for &(offset, value) in writes {
            sides.set(offset, value, ACCEPTED)?;
        }
        Ok(sides)
    }

    /// EX-3
    pub fn two_banks() -> Result<Self, String> {
        let writes = [
            (0x90, 1),
            (0x81, 2),
            (0x91, 4),
            (0xA0, 3),
            (0xF0, 4),
            (0xF2, 8),
        ];
        Sides::with(2, &writes)
    }

    /// Asks both sides and checks each answer against what is expected.
    pub fn ask(
        &mut self,
        request: &Request,
        expected: impl Fn(&Given) -> bool,
    ) -> Result<(), String> {
        let from_library = self.library.ask_library(request);
        let from_model = self.model.ask_model(request);
        for (side, given) in [("library", from_library), ("model", from_model)] {
            if !expected(&given) {
                return Err(format!("{request}: the {side} gives {}", given.shown()));
            }
        }
        match State::difference(&self.library, &self.model) {
            Some(difference) => Err(format!("{request}: {difference}")),
            None => Ok(()),
        }
    }

    /// A refusal, or `ACCEPTED` and the one number that the call gives.
    pub fn goes(&mut self, request: Request, way: u32) -> Result<(), String> {
        self.ask(&request, |given| given.way(&request) == way)
    }

    pub fn refused(&mut self, call: Call, number: u32) -> Result<(), String> {
        self.goes(Request::Listed(call), number)
    }

    /// An accepted read, write, scrub or burst: the answer of each access, with
    /// the flip bit of a correction, and the bytes of a read.
    pub fn answers(&mut self, call: Call, parts: &[Answer], bytes: &[u8]) -> Result<(), String> {
        let numbers = answers::numbers_of_parts(parts);
        self.ask(&Request::Listed(call), |given| {
            given.result == 0 && given.numbers == numbers && given.buffer.starts_with(bytes)
        })
    }

    pub fn set(&mut self, offset: u8, value: u8, answer: u32) -> Result<(), String> {
        let call = Call::WriteRegister { offset, value };
        self.goes(Request::Listed(call), answer)
    }

    pub fn get(&mut self, offset: u8, value: u8) -> Result<(), String> {
        let call = Call::ReadRegister { offset };
        self.goes(Request::Listed(call), ACCEPTED + u32::from(value))
    }

    pub fn place(&mut self, address: u32, place: [u32; 4]) -> Result<(), String> {
        let [bank, row, column, cell] = place;
        self.ask(&Request::Map(address), |given| {
            given.result == 0 && given.numbers == [1, bank, row, column, cell]
        })
    }

    pub fn no_bank(&mut self, address: u32) -> Result<(), String> {
        self.ask(&Request::Map(address), |given| {
            given.result == 0 && given.numbers == [0; 5]
        })
    }

    pub fn back(&mut self, bank: u32, row: u32, column: u32, address: u32) -> Result<(), String> {
        self.ask(&Request::WayBack { bank, row, column }, |given| {
            given.result == 0 && given.numbers[0] == address
        })
    }

    pub fn read(&mut self, address: u32, parts: &[Answer], bytes: &[u8]) -> Result<(), String> {
        let count = bytes.len();
        self.answers(Call::Read { address, count }, parts, bytes)
    }

    pub fn write(&mut self, address: u32, bytes: &[u8], parts: &[Answer]) -> Result<(), String> {
        let bytes = bytes.to_vec();
        self.answers(Call::Write { address, bytes }, parts, &[])
    }

    /// A flip that is accepted.
    pub fn flip(&mut self, address: u32, bit: u8) -> Result<(), String> {
        self.goes(Request::Listed(Call::Flip { address, bit }), ACCEPTED)
    }

    pub fn scrub(&mut self, address: u32, answer: Answer) -> Result<(), String> {
        self.answers(Call::Scrub { address }, &[answer], &[])
    }

    /// C8 to CB, lowest byte first.
    pub fn reported_address(&mut self, address: u32) -> Result<(), String> {
        for (offset, byte) in (0xC8..).zip(address.to_le_bytes()) {
            self.get(offset, byte)?;
        }
        Ok(())
    }

    /// The check byte of cell 0; the sides are known to be the same.
    pub fn check_byte(&self, expected: u8) -> Result<(), String> {
        let check = self.library.cells()[8];
        if check == expected {
            Ok(())
        } else {
            Err(format!("check byte {check:02x}, not {expected:02x}"))
        }
    }
}
