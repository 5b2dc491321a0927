//! MAP-6: cell numbers where several banks are long.

use model::map::{judge, map};

use crate::{end_of, has_place, mb, on, LARGEST, LARGEST_CELLS};

/// Address, bank, then row, column and cell number.
pub(crate) type Corner = (u32, u8, (u32, u32, u32));

/// The first and the last doubleword of each bank of [`LARGEST`], and where its
/// rows begin again. Bank k has its cells from k * 33,554,432 on. Above that is
/// w: with m the megabyte mod 256 (in bank 7, which has twelve row bits, mod 128),
/// the first doubleword has m * 131,072 and the last (m + 1) * 131,072 - 1.
pub(crate) const CORNERS: [Corner; 19] = [
    // m = 0 and 128
    (mb(0), 0, (0, 0, 0)),
    (end_of(128), 0, (4127, 4095, 16_908_287)),
    // m = 129 and 1
    (mb(129), 1, (4128, 0, 50_462_720)),
    (mb(256), 1, (0, 0, 33_554_432)),
    (end_of(257), 1, (63, 4095, 33_816_575)),
    // m = 2 and 130
    (mb(258), 2, (64, 0, 67_371_008)),
    (end_of(386), 2, (4191, 4095, 84_279_295)),
    // m = 131 and 3
    (mb(387), 3, (4192, 0, 117_833_728)),
    (mb(512), 3, (0, 0, 100_663_296)),
    (end_of(515), 3, (127, 4095, 101_187_583)),
    // m = 4 and 132
    (mb(516), 4, (128, 0, 134_742_016)),
    (end_of(644), 4, (4255, 4095, 151_650_303)),
    // m = 133 and 5
    (mb(645), 5, (4256, 0, 185_204_736)),
    (mb(768), 5, (0, 0, 167_772_160)),
    (end_of(773), 5, (191, 4095, 168_558_591)),
    // m = 6 and 134
    (mb(774), 6, (192, 0, 202_113_024)),
    (end_of(902), 6, (4319, 4095, 219_021_311)),
    // m = 7 and 127
    (mb(903), 7, (224, 0, 235_798_528)),
    (end_of(1023), 7, (4095, 4095, 251_658_239)),
];

#[test]
fn seven_long_banks_and_a_shorter_one() {
    let record = on(&LARGEST);
    assert_eq!(judge(&record).unwrap().cells() as usize, LARGEST_CELLS);
    for (address, n, place) in CORNERS {
        has_place(&record, address, n, place);
        has_place(&record, address + 7, n, place);
    }
    assert_eq!(map(&record, 0x4000_0000), Ok(None));
    assert_eq!(map(&record, 0xFFFF_FFFF), Ok(None));
}

/// Four of 256 MB take the whole gigabyte; each has one cell for each of its
/// doublewords, and the cell number is that of the doubleword.
#[test]
fn four_banks_of_256_megabytes() {
    let record = on(&[
        (0, 0, 255, 3),
        (2, 256, 511, 3),
        (5, 512, 767, 3),
        (7, 768, 1023, 3),
    ]);
    assert_eq!(judge(&record).unwrap().cells(), 134_217_728);
    for (n, first_mb, first_cell) in [
        (0, 0, 0),
        (2, 256, 33_554_432),
        (5, 512, 67_108_864),
        (7, 768, 100_663_296),
    ] {
        has_place(&record, mb(first_mb), n, (0, 0, first_cell));
        let last = (8191, 4095, first_cell + 33_554_431);
        has_place(&record, end_of(first_mb + 255), n, last);
    }
}

/// Bank 1 has 2^25 cells, bank 2 with nine row bits 2^17, bank 4 with twelve
/// 2^24, bank 6 2^25. They begin with cells 0, 33,554,432, 33,685,504 and
/// 50,462,720; bank 3, as long as bank 6, is off and has none.
#[test]
fn numbers_of_banks_not_addresses_order_the_cells() {
    let mut record = on(&[
        (1, 768, 1023, 3),
        (2, 767, 767, 0),
        (4, 0, 127, 3),
        (6, 128, 256, 3),
    ]);
    for (offset, value) in [(0x83, 0), (0x8B, 2), (0x93, 0x80), (0x9B, 2)] {
        record.set(offset, value);
    }
    record.set(0xF0, record.at(0xF0) | 3 << 6);
    assert_eq!(judge(&record).unwrap().cells(), 84_017_152);
    has_place(&record, mb(768), 1, (0, 0, 0));
    has_place(&record, end_of(1023), 1, (8191, 4095, 33_554_431));
    has_place(&record, mb(767), 2, (0, 0, 33_554_432));
    has_place(&record, end_of(767), 2, (511, 255, 33_685_503));
    has_place(&record, mb(0), 4, (0, 0, 33_685_504));
    has_place(&record, end_of(127), 4, (4095, 4095, 50_462_719));
    // 2^24 = 16,777,216 doublewords lie below MB 128.
    has_place(&record, mb(128), 6, (4096, 0, 67_239_936));
    has_place(&record, end_of(255), 6, (8191, 4095, 84_017_151));
    has_place(&record, mb(256), 6, (0, 0, 50_462_720));
    has_place(&record, end_of(256), 6, (31, 4095, 50_593_791));
    assert_eq!(map(&record, mb(512)), Ok(None));
}

/// The same spans but for one MB of bank 0: 128 MB leave 2^24 cells instead of
/// 2^25 before bank 1. Its own w stays: MB 129 has w = 129 * 131,072.
#[test]
fn a_megabyte_less_moves_the_cells_behind() {
    let long = on(&[(0, 0, 128, 3), (1, 129, 257, 3)]);
    let short = on(&[(0, 0, 127, 3), (1, 129, 257, 3)]);
    has_place(&long, mb(129), 1, (4128, 0, 33_554_432 + 16_908_288));
    has_place(&short, mb(129), 1, (4128, 0, 16_777_216 + 16_908_288));
    has_place(&long, mb(256), 1, (0, 0, 33_554_432));
    has_place(&short, mb(256), 1, (0, 0, 16_777_216));
}
