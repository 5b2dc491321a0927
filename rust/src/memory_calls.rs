//! The memory calls, over the record and lent slices.
use crate::answer::{answer, Answer};
use crate::ffi;
use crate::record::Record;
use crate::refusal::{accepted, Refusal};

impl Record {
    /// Reads as many bytes as the buffer has, 1 to 8: refusals 5, 6, 7, 9.
    /// [`Kind::Corrected`](crate::Kind::Corrected) has the bit that was wrong, which need not lie in one of these bytes.
    /// With [`Kind::Uncorrectable`](crate::Kind::Uncorrectable) the buffer gets the bytes as stored, and with
    /// [`Kind::NoBank`](crate::Kind::NoBank) each of its bytes becomes FF.
    ///
    /// If the bytes run into the next doubleword, the read is a split. It has two parts: the bytes up to the end of the
    /// first doubleword, at the address, and the rest, at the next doubleword. Each is a read of its own bytes: it gives
    /// a part of the answer, fills its own bytes of the buffer and is reported with its own address, and the second is
    /// performed whatever the first gives. If one of the two cells is not lent, the split is refused whole.
    ///
    /// ```
    /// use mpc106::{offset, Kind, Memory, Record};
    ///
    /// let mut record = Record::fresh();
    /// record.write_register(offset::END, 1)?; // bank 0 ends at megabyte 1
    /// record.write_register(offset::BANK_ENABLE, 1)?;
    /// record.write_register(offset::MEMORY, 8)?;
    ///
    /// let mut memory = Memory::new(record)?;
    /// memory.write(0x16, &[1, 2, 3, 4])?; // two bytes at 0x16, two at 0x18
    /// memory.flip(0x18, 5)?;
    /// let mut buffer = [0; 4];
    /// let answer = memory.read(0x16, &mut buffer)?;
    /// assert!(answer.kinds().eq([Kind::Clean, Kind::Corrected(5)]));
    /// assert_eq!(buffer, [1, 2, 3, 4]);
    ///
    /// let answer = memory.read(0x1f_fffd, &mut buffer)?; // the last byte is past the end of the bank
    /// assert!(answer.kinds().eq([Kind::Clean, Kind::NoBank]));
    /// assert_eq!(buffer, [0, 0, 0, 0xff]);
    /// # Ok::<(), mpc106::Refusal>(())
    /// ```
    pub fn read(
        &mut self,
        cells: &[u8],
        address: u32,
        buffer: &mut [u8],
    ) -> Result<Answer, Refusal> {
        let mut numbers = [0; 5];
        // SAFETY: the pointers are to as many bytes as each length says; the borrows are apart.
        accepted(unsafe {
            ffi::read(
                &mut self.registers,
                cells.as_ptr(),
                cells.len(),
                address,
                buffer.as_mut_ptr(),
                buffer.len(),
                &mut numbers,
            )
        })?;
        Ok(answer(numbers))
    }

    /// Writes 1 to 8 bytes: refusals 5, 6, 7, 9. Eight in one doubleword give
    /// [`Kind::Stored`](crate::Kind::Stored); fewer are merged into the corrected doubleword, which stays as it
    /// was if it is uncorrectable. [`Kind::Corrected`](crate::Kind::Corrected) has the bit that was wrong before.
    ///
    /// If the bytes run into the next doubleword, the write is a split, with the two parts of [`read`](Record::read).
    /// Each is a write of its own bytes, fewer than eight, so a split never gives [`Kind::Stored`](crate::Kind::Stored).
    pub fn write(
        &mut self,
        cells: &mut [u8],
        address: u32,
        bytes: &[u8],
    ) -> Result<Answer, Refusal> {
        let mut numbers = [0; 5];
        // SAFETY: the pointers are to as many bytes as each length says; the borrows are apart.
        accepted(unsafe {
            ffi::write(
                &mut self.registers,
                cells.as_mut_ptr(),
                cells.len(),
                address,
                bytes.as_ptr(),
                bytes.len(),
                &mut numbers,
            )
        })?;
        Ok(answer(numbers))
    }

    /// Inverts one bit of the cell of the doubleword that holds the address: refusals 5, 8, 10, 9. Data bits count from
    /// the highest bit of byte 0 (0) to the lowest of byte 7 (63); 64 + j is bit j of the check byte.
    pub fn flip(&self, cells: &mut [u8], address: u32, bit: u32) -> Result<(), Refusal> {
        // SAFETY: the pointer is to as many bytes as the length says; the borrows are apart.
        accepted(unsafe {
            ffi::flip(
                &self.registers,
                cells.as_mut_ptr(),
                cells.len(),
                address,
                bit,
            )
        })
    }

    /// Stores the doubleword that holds the address again if it was corrected, and answers with the bit that was wrong:
    /// refusals 5, 9.
    pub fn scrub(&mut self, cells: &mut [u8], address: u32) -> Result<Answer, Refusal> {
        let mut numbers = [0; 5];
        // SAFETY: the pointer is to as many bytes as the length says; the borrows are apart.
        accepted(unsafe {
            ffi::scrub(
                &mut self.registers,
                cells.as_mut_ptr(),
                cells.len(),
                address,
                &mut numbers,
            )
        })?;
        Ok(answer(numbers))
    }

    /// Reads a cache line, the [`LINE_BYTES`](crate::LINE_BYTES) from a multiple of 32 on, in four beats of one
    /// doubleword each: refusals 5, 19, 20, 9.
    ///
    /// The first beat is at the address, a multiple of 8. Each further beat is at the next doubleword, and after the
    /// last doubleword of the line comes the first. Each beat is a [`read`](Record::read) of 8 bytes: it gives a part of
    /// the answer, with a bit of its own if it was corrected, and eight bytes of the buffer, in the order of the beats,
    /// and is reported with its own address. If one of the four cells is not lent, the burst is refused whole.
    ///
    /// ```
    /// use mpc106::{offset, Kind, Record, CELL_BYTES, LINE_BYTES};
    ///
    /// let mut record = Record::fresh();
    /// record.write_register(offset::END, 1)?;
    /// record.write_register(offset::BANK_ENABLE, 1)?;
    /// record.write_register(offset::MEMORY, 8)?;
    ///
    /// let mut cells = [0; 4 * CELL_BYTES]; // those of the line at address 0
    /// record.write(&mut cells, 0x18, &[1; 8])?;
    /// record.write(&mut cells, 0x00, &[2; 8])?;
    /// record.flip(&mut cells, 0x00, 5)?;
    ///
    /// let mut line = [0; LINE_BYTES];
    /// let answer = record.burst_read(&cells, 0x18, &mut line)?; // beats at 0x18, 0x00, 0x08, 0x10
    /// let clean = Kind::Clean;
    /// assert!(answer.kinds().eq([clean, Kind::Corrected(5), clean, clean]));
    /// assert_eq!(line[..8], [1; 8]);
    /// assert_eq!(line[8..16], [2; 8]);
    /// # Ok::<(), mpc106::Refusal>(())
    /// ```
    pub fn burst_read(
        &mut self,
        cells: &[u8],
        address: u32,
        buffer: &mut [u8],
    ) -> Result<Answer, Refusal> {
        let mut numbers = [0; 5];
        // SAFETY: the pointers are to as many bytes as each length says; the borrows are apart.
        accepted(unsafe {
            ffi::burst_read(
                &mut self.registers,
                cells.as_ptr(),
                cells.len(),
                address,
                buffer.as_mut_ptr(),
                buffer.len(),
                &mut numbers,
            )
        })?;
        Ok(answer(numbers))
    }

    /// Writes a cache line in four beats, with the addresses and the order of [`burst_read`](Record::burst_read):
    /// refusals 5, 19, 20, 9. Each beat is a [`write`](Record::write) of 8 bytes; the first eight bytes go to the
    /// address.
    pub fn burst_write(
        &mut self,
        cells: &mut [u8],
        address: u32,
        bytes: &[u8],
    ) -> Result<Answer, Refusal> {
        let mut numbers = [0; 5];
        // SAFETY: the pointers are to as many bytes as each length says; the borrows are apart.
        accepted(unsafe {
            ffi::burst_write(
                &mut self.registers,
                cells.as_mut_ptr(),
                cells.len(),
                address,
                bytes.as_ptr(),
                bytes.len(),
                &mut numbers,
            )
        })?;
        Ok(answer(numbers))
    }
}
