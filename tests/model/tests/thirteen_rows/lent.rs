//! MAP-8, REF-9: the bytes of cells in long banks, and cells not wholly lent.
//!
//! The lent zeros are gigabytes in number, but those that nothing touches take
//! no memory.

use model::memory::{burst_read, burst_write, flip, read, scrub, write};
use model::Answer::{Clean, Stored};
use model::Answers::{Single, Split};
use model::{Record, Refusal};

use crate::several::CORNERS;
use crate::{end_of, on, LARGEST, LARGEST_CELLS};

const NOT_LENT: Refusal = Refusal::CellNotLent;

/// Read, write, flip and scrub at an address get 9 and change nothing.
fn not_lent(record: &Record, cells: &mut [u8], address: u32) {
    let mut after = *record;
    let mut buffer = [0x77; 8];
    let refused = read(&mut after, cells, address, &mut buffer);
    assert_eq!(refused, Err(NOT_LENT), "{address:08x}");
    let refused = write(&mut after, cells, address, &[1; 8]);
    assert_eq!(refused, Err(NOT_LENT), "{address:08x}");
    assert_eq!(flip(&after, cells, address, 71), Err(NOT_LENT));
    assert_eq!(scrub(&mut after, cells, address), Err(NOT_LENT));
    assert_eq!((after, buffer), (*record, [0x77; 8]));
}

/// The corners of all eight banks, the last of them cell 251,658,239 with bytes
/// past 2^31: its nine end the lent ones, or some of the nine are missing.
#[test]
fn corners_of_the_largest_set_up() {
    let mut record = on(&LARGEST);
    let mut cells = vec![0; 9 * LARGEST_CELLS];
    for (address, _, (.., k)) in CORNERS {
        let first = 9 * k as usize;
        let bytes = u64::from(address + 1).to_be_bytes();
        let stored = write(&mut record, &mut cells[..first + 9], address, &bytes);
        assert_eq!(stored, Ok(Single(Stored)), "{address:08x}");
        assert_eq!(cells[first..first + 8], bytes);
        let before = cells[first..first + 9].to_vec();
        for missing in [1, 2, 8, 9] {
            not_lent(&record, &mut cells[..first + 9 - missing], address);
        }
        not_lent(&record, &mut [], address);
        assert_eq!(cells[first..first + 9], before);
    }
    for (address, ..) in CORNERS {
        let mut buffer = [0; 8];
        let answer = read(&mut record, &cells, address, &mut buffer);
        assert_eq!(answer, Ok(Single(Clean)));
        assert_eq!(buffer, u64::from(address + 1).to_be_bytes());
    }
}

/// One byte is missing of the last cell of 256 MB: only its doubleword and its
/// line are refused.
#[test]
fn the_last_cell_of_a_bank() {
    let mut record = on(&[(0, 0, 255, 3)]);
    let mut cells = vec![0; 9 * 33_554_432];
    let short = &mut cells[..9 * 33_554_432 - 1];
    not_lent(&record, short, 0x0FFF_FFF8);
    let answer = read(&mut record, short, 0x0FFF_FFF0, &mut [0; 8]);
    assert_eq!(answer, Ok(Single(Clean)));
    for address in [0x0FFF_FFE0, 0x0FFF_FFE8, 0x0FFF_FFF0, 0x0FFF_FFF8] {
        let refused = burst_read(&mut record, short, address, &mut [0; 32]);
        assert_eq!(refused, Err(NOT_LENT), "{address:08x}");
        let refused = burst_write(&mut record, short, address, &[1; 32]);
        assert_eq!(refused, Err(NOT_LENT), "{address:08x}");
    }
    let before = burst_read(&mut record, short, 0x0FFF_FFC0, &mut [0; 32]);
    assert_eq!(before, Ok([Clean; 4]));
    let mut line = [0x77; 32];
    let whole = burst_read(&mut record, &cells, 0x0FFF_FFE8, &mut line);
    assert_eq!((whole, line), (Ok([Clean; 4]), [0; 32]));
}

/// A split write of four bytes on each side, refused with all but one of the
/// lent bytes and accepted with all; the doublewords have these two cells.
fn split_needs(record: &Record, edge: u32, lent: usize, [lower, upper]: [usize; 2]) {
    let mut record = *record;
    let mut cells = vec![0; 9 * lent];
    let bytes = [1, 2, 3, 4, 5, 6, 7, 8];
    let short = &mut cells[..9 * lent - 1];
    let refused = write(&mut record, short, edge - 4, &bytes);
    assert_eq!(refused, Err(NOT_LENT), "{edge:08x}");
    assert_eq!(cells[9 * lower..9 * lower + 9], [0; 9]);
    assert_eq!(cells[9 * upper..9 * upper + 9], [0; 9]);
    let answers = write(&mut record, &mut cells, edge - 4, &bytes);
    assert_eq!(answers, Ok(Split([Clean; 2])), "{edge:08x}");
    assert_eq!(cells[9 * lower..9 * lower + 8], [0, 0, 0, 0, 1, 2, 3, 4]);
    assert_eq!(cells[9 * upper..9 * upper + 8], [5, 6, 7, 8, 0, 0, 0, 0]);
}

/// Where the rows of a bank begin again its last cell comes before its first.
/// From bank 1 of the largest set-up into bank 2 the cells are those of the
/// corners; only as many are lent as the higher one needs.
#[test]
fn splits_between_far_cells() {
    let wrapping = on(&[(0, 200, 328, 3)]);
    let cells = [33_554_431, 0];
    split_needs(&wrapping, 0x1000_0000, 33_554_432, cells);
    let cells = [33_816_575, 67_371_008];
    split_needs(&on(&LARGEST), end_of(257) + 8, 67_371_009, cells);
}
