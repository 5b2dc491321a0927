//! A memory that holds its own cells.
use crate::{Answer, LoadError, Record, Refusal, CELL_BYTES};
use alloc::vec;
use alloc::vec::Vec;

/// A record that was switched on, with the cells of its banks. Each call is that of [`Record`] on these cells.
#[derive(Clone, Debug, PartialEq, Eq)]
#[non_exhaustive]
pub struct Memory {
    /// The register record.
    pub record: Record,
    /// The cells, nine bytes each.
    pub cells: Vec<u8>,
}

impl Memory {
    /// A memory with as many cells as the record's banks have, all of them zero: refusal 5.
    pub fn new(record: Record) -> Result<Self, Refusal> {
        let count = record.cell_count()? as usize;
        Ok(Memory::with_cells(record, vec![0; count * CELL_BYTES]))
    }

    /// A memory with these cells, however many there are: those of a save state, say.
    pub fn with_cells(record: Record, cells: Vec<u8>) -> Self {
        Memory { record, cells }
    }

    /// Reads as many bytes as the buffer has: see [`Record::read`].
    pub fn read(&mut self, address: u32, buffer: &mut [u8]) -> Result<Answer, Refusal> {
        self.record.read(&self.cells, address, buffer)
    }

    /// Writes 1 to 8 bytes: see [`Record::write`].
    pub fn write(&mut self, address: u32, bytes: &[u8]) -> Result<Answer, Refusal> {
        self.record.write(&mut self.cells, address, bytes)
    }

    /// Reads 16 bits in the byte order of the board: see [`Record::read_u16`].
    pub fn read_u16(&mut self, address: u32) -> Result<(u16, Answer), Refusal> {
        self.record.read_u16(&self.cells, address)
    }

    /// Reads 32 bits in the byte order of the board: see [`Record::read_u32`].
    pub fn read_u32(&mut self, address: u32) -> Result<(u32, Answer), Refusal> {
        self.record.read_u32(&self.cells, address)
    }

    /// Reads 64 bits in the byte order of the board: see [`Record::read_u64`].
    pub fn read_u64(&mut self, address: u32) -> Result<(u64, Answer), Refusal> {
        self.record.read_u64(&self.cells, address)
    }

    /// Writes 16 bits in the byte order of the board: see [`Record::write_u16`].
    pub fn write_u16(&mut self, address: u32, value: u16) -> Result<Answer, Refusal> {
        self.record.write_u16(&mut self.cells, address, value)
    }

    /// Writes 32 bits in the byte order of the board: see [`Record::write_u32`].
    pub fn write_u32(&mut self, address: u32, value: u32) -> Result<Answer, Refusal> {
        self.record.write_u32(&mut self.cells, address, value)
    }

    /// Writes 64 bits in the byte order of the board: see [`Record::write_u64`].
    pub fn write_u64(&mut self, address: u32, value: u64) -> Result<Answer, Refusal> {
        self.record.write_u64(&mut self.cells, address, value)
    }

    /// Loads an image: see [`Record::load`].
    pub fn load(&mut self, address: u32, image: &[u8]) -> Result<(), LoadError> {
        self.record.load(&mut self.cells, address, image)
    }

    /// Inverts one bit: see [`Record::flip`].
    pub fn flip(&mut self, address: u32, bit: u32) -> Result<(), Refusal> {
        self.record.flip(&mut self.cells, address, bit)
    }

    /// Scrubs a doubleword: see [`Record::scrub`].
    pub fn scrub(&mut self, address: u32) -> Result<Answer, Refusal> {
        self.record.scrub(&mut self.cells, address)
    }

    /// Reads a cache line: see [`Record::burst_read`].
    pub fn burst_read(&mut self, address: u32, buffer: &mut [u8]) -> Result<Answer, Refusal> {
        self.record.burst_read(&self.cells, address, buffer)
    }

    /// Writes a cache line: see [`Record::burst_write`].
    pub fn burst_write(&mut self, address: u32, bytes: &[u8]) -> Result<Answer, Refusal> {
        self.record.burst_write(&mut self.cells, address, bytes)
    }
}
