//! BACK-1 and refusals 15, 16 and 17 in long banks.

use model::map::{way_back, Column, Row};
use model::{Record, Refusal};

use crate::several::CORNERS;
use crate::{end_of, mb, on, LARGEST};

fn back(record: &Record, n: u8, row: u32, column: u32) -> Result<u32, Refusal> {
    way_back(record, n, Row(row), Column(column))
}

#[test]
fn from_every_corner() {
    let record = on(&LARGEST);
    for (address, n, (row, column, _)) in CORNERS {
        assert_eq!(back(&record, n, row, column), Ok(address), "{address:08x}");
    }
}

/// 256 MB from MB 100, which begins with row 3200. Rows from there on have their
/// address below 2^28, at 32,768 bytes a row; the lower ones 2^28 above that.
#[test]
fn every_row_of_256_megabytes() {
    let record = on(&[(1, 100, 355, 3)]);
    for row in 0..8192 {
        let above = if row < 3200 { 0x1000_0000 } else { 0 };
        let address = row * 32_768 + above;
        assert_eq!(back(&record, 1, row, 0), Ok(address), "row {row}");
        let last = address + 8 * 4095;
        assert_eq!(back(&record, 1, row, 4095), Ok(last), "row {row}");
    }
}

/// REF-15, also where row or column are too large for any bank.
#[test]
fn no_such_bank() {
    let record = on(&[(0, 0, 255, 3), (2, 256, 384, 3)]);
    for n in [1, 3, 7, 8, 9, 255] {
        for (row, column) in [(0, 0), (8192, 0), (0, 4096), (u32::MAX, u32::MAX)] {
            assert_eq!(back(&record, n, row, column), Err(Refusal::NoSuchBank));
        }
    }
    assert_eq!(back(&record, 0, 8191, 4095), Ok(end_of(255)));
    assert_eq!(back(&record, 2, 0, 0), Ok(mb(256)));
}

/// REF-16, also where the other number has no address by itself: 129 MB have
/// rows up to 4127.
#[test]
fn rows_up_to_8191_and_columns_up_to_4095() {
    let too_large = Err(Refusal::RowOrColumnTooLarge);
    let record = on(&[(0, 0, 255, 3), (1, 256, 384, 3), (2, 512, 639, 3)]);
    assert_eq!(back(&record, 0, 8191, 4095), Ok(0x0FFF_FFF8));
    for n in [0, 1] {
        for row in [8192, 8193, 16_384, 1 << 31, u32::MAX] {
            assert_eq!(back(&record, n, row, 0), too_large, "row {row}");
        }
        for column in [4096, 4097, 8191, 8192, 1 << 31, u32::MAX] {
            assert_eq!(back(&record, n, 0, column), too_large, "column {column}");
            assert_eq!(back(&record, n, 8191, column), too_large);
        }
    }
    // With 128 MB the rows end at 4095: MB 639 is 127 past 512.
    assert_eq!(back(&record, 2, 4095, 4095), Ok(end_of(639)));
    assert_eq!(back(&record, 2, 4096, 0), too_large);
    assert_eq!(back(&record, 2, 8191, 0), too_large);
    assert_eq!(back(&record, 2, 0, 4096), too_large);
}

/// REF-17: the rows of a bank without an address, and the rows beside them.
#[test]
fn no_address_has_the_cell() {
    let none = Err(Refusal::NoAddress);
    // MB 0 to 128: rows 0 to 4127.
    let record = on(&[(0, 0, 128, 3)]);
    assert_eq!(back(&record, 0, 4127, 4095), Ok(0x080F_FFF8));
    assert_eq!(back(&record, 0, 4128, 0), none);
    assert_eq!(back(&record, 0, 8191, 4095), none);
    // MB 200 to 328: rows 6400 to 8191, then 0 to 2335.
    let record = on(&[(0, 200, 328, 3)]);
    assert_eq!(back(&record, 0, 6400, 0), Ok(mb(200)));
    assert_eq!(back(&record, 0, 8191, 4095), Ok(end_of(255)));
    assert_eq!(back(&record, 0, 0, 0), Ok(mb(256)));
    assert_eq!(back(&record, 0, 2335, 4095), Ok(end_of(328)));
    for (row, column) in [(2336, 0), (4095, 4095), (4096, 0), (6399, 4095)] {
        assert_eq!(back(&record, 0, row, column), none, "row {row}");
    }
    // MB 769 to 1023: all but the 32 rows that MB 768 would have.
    let record = on(&[(0, 769, 1023, 3)]);
    assert_eq!(back(&record, 0, 0, 0), none);
    assert_eq!(back(&record, 0, 31, 4095), none);
    assert_eq!(back(&record, 0, 32, 0), Ok(mb(769)));
    assert_eq!(back(&record, 0, 8191, 4095), Ok(0x3FFF_FFF8));
}

/// How many rows of a bank have an address at column 0; a megabyte has 32.
#[test]
fn rows_with_an_address() {
    for (start, last, expected) in [
        (0, 128, 129 * 32),
        (200, 328, 129 * 32),
        (255, 500, 246 * 32),
        (769, 1023, 255 * 32),
        (700, 955, 8192),
    ] {
        let record = on(&[(6, start, last, 3)]);
        let found = (0..8192).filter(|&row| back(&record, 6, row, 0).is_ok());
        assert_eq!(found.count(), expected, "MB {start} to {last}");
    }
}
