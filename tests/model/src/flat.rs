//! The flat machine (FLAT-1), which has no cells and no check bytes.

use std::collections::HashMap;
use std::ops::Range;

use crate::answers::{Answer, Answers};
use crate::calls::{Call, Outcome};
use crate::map;
use crate::record::Record;
use crate::refusal::Refusal;

/// First and last MB of a span, inclusive.
#[derive(Clone, Copy, Debug, PartialEq, Eq)]
pub struct Span {
    pub start_mb: u32,
    pub last_mb: u32,
}

/// FLAT-1: an address without an entry has the byte 0, and a doubleword without
/// one has no mark. FLAT-5: what stands in `marks` is the flip bit that set the
/// mark.
#[derive(Clone, Debug, Default)]
pub struct FlatMachine {
    spans: Vec<Span>,
    bytes: HashMap<u32, u8>,
    marks: HashMap<u32, u8>,
}

impl FlatMachine {
    pub fn new(spans: Vec<Span>) -> Self {
        FlatMachine {
            spans,
            ..FlatMachine::default()
        }
    }

    /// The flat machine of a record that was just switched on.
    pub fn of_record(record: &Record) -> Result<Self, Refusal> {
        let layout = map::switched_on(record)?;
        let spans = layout.enabled().map(|(_, bank)| Span {
            start_mb: bank.start_mb,
            last_mb: bank.last_mb,
        });
        Ok(FlatMachine::new(spans.collect()))
    }

    /// True if some span holds the address.
    pub fn selects_bank(&self, address: u32) -> bool {
        let megabyte = address >> 20;
        self.spans
            .iter()
            .any(|span| span.start_mb <= megabyte && megabyte <= span.last_mb)
    }

    /// Runs a list. Register calls give `None`: they leave the flat machine as
    /// it is (FLAT-8), and what they return is not compared (LIST-10).
    pub fn run(&mut self, calls: &[Call]) -> Vec<Option<Outcome>> {
        calls.iter().map(|call| self.step(call)).collect()
    }

    /// Runs one call.
    pub fn step(&mut self, call: &Call) -> Option<Outcome> {
        let outcome = match call {
            Call::Read { address, count } => self
                .read(*address, *count)
                .map(|(answers, bytes)| Outcome::Read(answers, bytes)),
            Call::Write { address, bytes } => self.write(*address, bytes).map(Outcome::Answered),
            Call::Flip { address, bit } => self.flip(*address, *bit),
            Call::Scrub { address } => Ok(self.scrub(*address)),
            Call::BurstRead { address, count } => self.burst_read(*address, *count),
            Call::BurstWrite { address, bytes } => self.burst_write(*address, bytes),
            Call::ReadRegister { .. } | Call::WriteRegister { .. } => return None,
        };
        Some(outcome.unwrap_or_else(Outcome::Refused))
    }

    /// FLAT-3, FLAT-9
    fn read(&self, address: u32, count: usize) -> Result<(Answers, Vec<u8>), Refusal> {
        check_access(address, count)?;
        let mut bytes = Vec::with_capacity(count);
        let answers = by_accesses(address, count, |part| {
            self.read_access(address + part.start as u32, part.len(), &mut bytes)
        });
        Ok((answers, bytes))
    }

    /// FLAT-3: a read inside a doubleword. Its bytes are appended.
    fn read_access(&self, address: u32, count: usize, bytes: &mut Vec<u8>) -> Answer {
        if !self.selects_bank(address) {
            bytes.resize(bytes.len() + count, 0xFF);
            return Answer::NoBank;
        }
        let addresses = address..=address + (count as u32 - 1);
        bytes.extend(addresses.map(|at| self.bytes.get(&at).copied().unwrap_or(0)));
        answer_by_mark(self.marks.get(&doubleword(address)).copied())
    }

    /// FLAT-2, FLAT-9
    fn write(&mut self, address: u32, bytes: &[u8]) -> Result<Answers, Refusal> {
        check_access(address, bytes.len())?;
        Ok(by_accesses(address, bytes.len(), |part| {
            self.write_access(address + part.start as u32, &bytes[part])
        }))
    }

    /// FLAT-2: a write inside a doubleword.
    fn write_access(&mut self, address: u32, bytes: &[u8]) -> Answer {
        if !self.selects_bank(address) {
            return Answer::NoBank;
        }
        for (distance, &byte) in (0..).zip(bytes) {
            self.bytes.insert(address + distance, byte);
        }
        let mark = self.marks.remove(&doubleword(address));
        if bytes.len() == 8 {
            Answer::Stored
        } else {
            answer_by_mark(mark)
        }
    }

    /// FLAT-5: the mark remembers the bit of this flip, whichever stood before.
    fn flip(&mut self, address: u32, bit: u8) -> Result<Outcome, Refusal> {
        if bit > 71 {
            return Err(Refusal::BadFlipBit);
        }
        if !self.selects_bank(address) {
            return Err(Refusal::FlipWithoutBank);
        }
        self.marks.insert(doubleword(address), bit);
        Ok(Outcome::Flipped)
    }

    /// FLAT-4
    fn scrub(&mut self, address: u32) -> Outcome {
        Outcome::Answered(Answers::Single(if self.selects_bank(address) {
            answer_by_mark(self.marks.remove(&doubleword(address)))
        } else {
            Answer::NoBank
        }))
    }

    /// FLAT-9: four reads of eight bytes.
    fn burst_read(&self, address: u32, count: usize) -> Result<Outcome, Refusal> {
        check_burst(address, count)?;
        let mut answers = [Answer::NoBank; 4];
        let mut bytes = Vec::with_capacity(32);
        for (answer, beat) in answers.iter_mut().zip(beats(address)) {
            *answer = self.read_access(beat, 8, &mut bytes);
        }
        Ok(Outcome::BurstRead(answers, bytes))
    }

    /// FLAT-9: four writes of eight bytes.
    fn burst_write(&mut self, address: u32, bytes: &[u8]) -> Result<Outcome, Refusal> {
        check_burst(address, bytes.len())?;
        let mut answers = [Answer::NoBank; 4];
        let parts = beats(address).zip(bytes.chunks(8));
        for (answer, (beat, data)) in answers.iter_mut().zip(parts) {
            *answer = self.write_access(beat, data);
        }
        Ok(Outcome::BurstWritten(answers))
    }
}

/// MEM-14: the doubleword asked for and those after it in its line, then those
/// before it. Written in another way than for the cells, see [`check_access`].
fn beats(address: u32) -> impl Iterator<Item = u32> {
    let line = address & !0x1F;
    let behind = (address..=line + 24).step_by(8);
    behind.chain((line..address).step_by(8))
}

/// MEM-17: makes the accesses of an accepted read or write, the lower address
/// first. Each is told which of the bytes are its own. The bytes are looked
/// through for one that begins a doubleword, see [`check_access`].
fn by_accesses(
    address: u32,
    count: usize,
    mut access: impl FnMut(Range<usize>) -> Answer,
) -> Answers {
    let begins_doubleword = |&distance: &usize| (address + distance as u32) & 7 == 0;
    match (1..count).find(begins_doubleword) {
        None => Answers::Single(access(0..count)),
        Some(edge) => Answers::Split([access(0..edge), access(edge..count)]),
    }
}

/// The number of the doubleword that contains an address.
pub fn doubleword(address: u32) -> u32 {
    address / 8
}

/// The mark knows by itself which bit is put right: there is no syndrome here.
fn answer_by_mark(mark: Option<u8>) -> Answer {
    mark.map_or(Answer::Clean, Answer::Corrected)
}

/// FLAT-6: refusals 6 and 7 follow from the arguments. They are written again,
/// not shared with the cells, so that one mistake cannot hide in both.
fn check_access(address: u32, count: usize) -> Result<(), Refusal> {
    if !(1..=8).contains(&count) {
        return Err(Refusal::BadCount);
    }
    if u64::from(address) + count as u64 > 1 << 32 {
        return Err(Refusal::PassesLastAddress);
    }
    Ok(())
}

/// FLAT-6: refusals 19 and 20 follow from the arguments too.
fn check_burst(address: u32, count: usize) -> Result<(), Refusal> {
    if address & 7 != 0 {
        Err(Refusal::Misaligned)
    } else if count != 32 {
        Err(Refusal::NotCacheLine)
    } else {
        Ok(())
    }
}
