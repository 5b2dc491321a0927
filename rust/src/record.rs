//! The register record, and the calls that need no cells.
use crate::ffi;
use crate::offset;
use crate::refusal::{accepted, Refusal};

/// A row number.
#[derive(Clone, Copy, Debug, PartialEq, Eq, Hash)]
pub struct Row(pub u32);

/// A column number.
#[derive(Clone, Copy, Debug, PartialEq, Eq, Hash)]
pub struct Column(pub u32);

/// Where a doubleword is kept.
#[derive(Clone, Copy, Debug, PartialEq, Eq, Hash)]
pub struct Place {
    /// The bank, 0 to 7.
    pub bank: u32,
    /// The row within the bank.
    pub row: Row,
    /// The column within the bank.
    pub column: Column,
    /// The number of the cell: it starts at byte `9 * cell` of the lent cells.
    pub cell: u32,
}

/// The register record: 256 bytes, one for each offset. It may hold any bytes, since each call judges its record
/// again. To keep it as a save state, store the bytes of `registers`, with the version of this crate: later versions may
/// add fields. [`Record::from_registers`] loads the 256 bytes of this or an earlier version.
#[derive(Clone, Copy, Debug, PartialEq, Eq)]
#[non_exhaustive]
pub struct Record {
    /// The byte at each offset.
    pub registers: [u8; 256],
}

impl Default for Record {
    fn default() -> Self {
        Record::fresh()
    }
}

impl Record {
    /// A fresh record: all zero, memory off.
    pub fn fresh() -> Self {
        let mut registers = [0xff; 256];
        // SAFETY: the array is the call's alone.
        unsafe { ffi::fresh(&mut registers) };
        Record { registers }
    }

    /// A fresh record with these registers, those of a save state: whatever later versions add to a record is as
    /// [`Record::fresh`] leaves it. It is not judged; if it could not be switched on, calls that use it get refusal 5.
    pub fn from_registers(registers: [u8; 256]) -> Self {
        let mut record = Record::fresh();
        record.registers = registers;
        record
    }

    /// What switching the record on would return: refusal 11; then, with the banks in ascending order, 12 or
    /// 13; last 14, with the lowest bank that has it.
    pub fn judge(&self) -> Result<(), Refusal> {
        // SAFETY: nothing is changed.
        accepted(unsafe { ffi::judge(&self.registers) })
    }

    /// How many cells of [`CELL_BYTES`](crate::CELL_BYTES) the memory has, at most 251,658,240 (15 · 2^24), which have
    /// 2,264,924,160 bytes: refusal 5.
    pub fn cell_count(&self) -> Result<u32, Refusal> {
        let mut count = [0];
        // SAFETY: the number is the call's alone.
        accepted(unsafe { ffi::cell_count(&self.registers, &mut count) })?;
        Ok(count[0])
    }

    /// The register at an offset: refusal 1.
    pub fn read_register(&self, offset: u32) -> Result<u8, Refusal> {
        let mut value = [0];
        // SAFETY: the byte is the call's alone.
        accepted(unsafe { ffi::register_read(&self.registers, offset, &mut value) })?;
        Ok(value[0])
    }

    /// Writes a register: refusals 1 to 4, and those of [`Record::judge`] if the write switches memory on.
    /// Writing 8 to F2 while memory is on checks nothing, and leaves 08 there.
    pub fn write_register(&mut self, offset: u32, value: u8) -> Result<(), Refusal> {
        // SAFETY: the record is the call's alone.
        accepted(unsafe { ffi::register_write(&mut self.registers, offset, value) })
    }

    /// The error address, C8 to CB, as one number.
    pub fn error_address(&self) -> u32 {
        let byte = |place| {
            let mut value = [0];
            // SAFETY: the byte is the call's alone. It is not refused, since each of the four offsets has a register.
            unsafe {
                ffi::register_read(&self.registers, offset::ERROR_ADDRESS + place, &mut value)
            };
            value[0]
        };
        u32::from_le_bytes([byte(0), byte(1), byte(2), byte(3)])
    }

    /// Where an address is kept, or `None` if no enabled bank holds it, which is not reported: refusal 5.
    pub fn map(&self, address: u32) -> Result<Option<Place>, Refusal> {
        let mut place = [0; 5];
        // SAFETY: the numbers are the call's alone.
        accepted(unsafe { ffi::map(&self.registers, address, &mut place) })?;
        let [found, bank, row, column, cell] = place;
        Ok((found == 1).then_some(Place {
            bank,
            row: Row(row),
            column: Column(column),
            cell,
        }))
    }

    /// The address of the doubleword at a row and a column of a bank: refusals 5, 15, 16, 17.
    pub fn way_back(&self, bank: u32, row: Row, column: Column) -> Result<u32, Refusal> {
        let mut address = [0];
        // SAFETY: the number is the call's alone.
        accepted(unsafe { ffi::way_back(&self.registers, bank, row.0, column.0, &mut address) })?;
        Ok(address[0])
    }

    /// Whether both records map all 2^32 addresses in the same way (bank, row and column, or no bank): refusal 5.
    pub fn is_alike(&self, other: &Record) -> Result<bool, Refusal> {
        let mut alike = [0];
        // SAFETY: the number is the call's alone.
        accepted(unsafe { ffi::alike(&self.registers, &other.registers, &mut alike) })?;
        Ok(alike[0] == 1)
    }
}
