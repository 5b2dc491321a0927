//! What emulators of a board do by several calls or in its byte order: numbers, and images to be loaded.
use crate::{Answer, Kind, Record, Refusal};
use core::error::Error;
use core::fmt;

/// Where the loading of an image stopped: the bytes before are stored, and stay.
#[derive(Clone, Copy, Debug, PartialEq, Eq)]
#[non_exhaustive]
pub struct LoadError {
    /// How many bytes of the image are stored, the first ones.
    pub stored: usize,
    /// What the write after them gave: a refusal, or the kind of an answer that stored nothing.
    pub given: Result<Kind, Refusal>,
}

impl fmt::Display for LoadError {
    fn fmt(&self, f: &mut fmt::Formatter<'_>) -> fmt::Result {
        write!(f, "{} bytes are loaded, and no more: ", self.stored)?;
        match self.given {
            Err(refusal) => refusal.fmt(f),
            Ok(Kind::NoBank) => f.write_str("no enabled bank holds the next address"),
            Ok(Kind::Uncorrectable) => f.write_str("the next doubleword can't be corrected"),
            Ok(kind) => write!(f, "the next write gave {kind:?}"),
        }
    }
}

impl Error for LoadError {}

impl Record {
    fn read_array<const COUNT: usize>(
        &mut self,
        cells: &[u8],
        address: u32,
    ) -> Result<([u8; COUNT], Answer), Refusal> {
        let mut bytes = [0; COUNT];
        let answer = self.read(cells, address, &mut bytes)?;
        Ok((bytes, answer))
    }

    /// Reads 16 bits in the byte order of the board, that of the PowerPC: the byte at the lowest address is the highest of
    /// the number. It is a [`read`](Record::read) of two bytes, at any address, and may be a split: refusals 5, 7, 9.
    ///
    /// ```
    /// use mpc106::{offset, Kind, Memory, Record};
    ///
    /// let mut record = Record::fresh();
    /// record.write_register(offset::END, 1)?;
    /// record.write_register(offset::BANK_ENABLE, 1)?;
    /// record.write_register(offset::MEMORY, 8)?;
    ///
    /// let mut memory = Memory::new(record)?;
    /// memory.write_u32(0x16, 0xdead_beef)?; // DE AD at 0x16, BE EF at 0x18
    /// let (half, answer) = memory.read_u16(0x17)?;
    /// assert_eq!(half, 0xadbe);
    /// assert_eq!(answer.worst_kind(), Kind::Clean);
    /// # Ok::<(), mpc106::Refusal>(())
    /// ```
    pub fn read_u16(&mut self, cells: &[u8], address: u32) -> Result<(u16, Answer), Refusal> {
        let (bytes, answer) = self.read_array(cells, address)?;
        Ok((u16::from_be_bytes(bytes), answer))
    }

    /// Reads 32 bits, as [`read_u16`](Record::read_u16) reads 16.
    pub fn read_u32(&mut self, cells: &[u8], address: u32) -> Result<(u32, Answer), Refusal> {
        let (bytes, answer) = self.read_array(cells, address)?;
        Ok((u32::from_be_bytes(bytes), answer))
    }

    /// Reads 64 bits, as [`read_u16`](Record::read_u16) reads 16. Data bit 0 of a doubleword is the top bit.
    pub fn read_u64(&mut self, cells: &[u8], address: u32) -> Result<(u64, Answer), Refusal> {
        let (bytes, answer) = self.read_array(cells, address)?;
        Ok((u64::from_be_bytes(bytes), answer))
    }

    /// Writes 16 bits in the byte order of the board, that of [`read_u16`](Record::read_u16). It is a
    /// [`write`](Record::write) of two bytes, at any address, and may be a split: refusals 5, 7, 9.
    pub fn write_u16(
        &mut self,
        cells: &mut [u8],
        address: u32,
        value: u16,
    ) -> Result<Answer, Refusal> {
        self.write(cells, address, &value.to_be_bytes())
    }

    /// Writes 32 bits, as [`write_u16`](Record::write_u16) writes 16.
    pub fn write_u32(
        &mut self,
        cells: &mut [u8],
        address: u32,
        value: u32,
    ) -> Result<Answer, Refusal> {
        self.write(cells, address, &value.to_be_bytes())
    }

    /// Writes 64 bits, as [`write_u16`](Record::write_u16) writes 16.
    pub fn write_u64(
        &mut self,
        cells: &mut [u8],
        address: u32,
        value: u64,
    ) -> Result<Answer, Refusal> {
        self.write(cells, address, &value.to_be_bytes())
    }

    /// Loads an image: writes its bytes from an address on, by one [`write`](Record::write) for each doubleword that they
    /// reach. It stops where a write is refused, with 5 or 9, or stores nothing: where no bank holds the address, or the
    /// image begins or ends inside a doubleword that can't be corrected. The error says how far it came.
    pub fn load(&mut self, cells: &mut [u8], address: u32, image: &[u8]) -> Result<(), LoadError> {
        let mut stored = 0;
        while stored < image.len() {
            // It does not pass 2^32: no bank reaches so far, and the load ends where there is none.
            let next = address.wrapping_add(stored as u32);
            let count = (8 - next as usize % 8).min(image.len() - stored);
            let written = self.write(cells, next, &image[stored..stored + count]);
            let given = written.map(|answer| answer.worst_kind());
            let Ok(Kind::Clean | Kind::Corrected(_) | Kind::Stored) = given else {
                return Err(LoadError { stored, given });
            };
            stored += count;
        }
        Ok(())
    }
}
