//! MAP-3, MAP-4: row, column and cell at the corners of long banks. In a lone
//! bank the cell number is w, that is 4096 * row + column.

use model::map::map;
use model::Record;

use crate::{end_of, has_place, mb, on};

/// The first and the last doubleword of a span, and none on either side.
fn spans(record: &Record, n: u8, start_mb: u32, last_mb: u32) {
    for address in [mb(start_mb), end_of(last_mb) + 7] {
        let place = map(record, address).unwrap();
        assert_eq!(place.map(|place| place.bank), Some(n), "{address:08x}");
    }
    let outside = [mb(start_mb).checked_sub(1), end_of(last_mb).checked_add(8)];
    for address in outside.into_iter().flatten() {
        assert_eq!(map(record, address), Ok(None), "{address:08x}");
    }
}

/// 256 MB from 0: w is the number of the doubleword. All 2^25 cells have one.
#[test]
fn all_rows_from_megabyte_0() {
    let record = on(&[(0, 0, 255, 3)]);
    spans(&record, 0, 0, 255);
    has_place(&record, 0x0000_0000, 0, (0, 0, 0));
    has_place(&record, 0x0000_0008, 0, (0, 1, 1));
    has_place(&record, 0x0000_7FFF, 0, (0, 4095, 4095));
    has_place(&record, 0x0000_8000, 0, (1, 0, 4096));
    // 2^27 bytes are 2^24 doublewords: with twelve row bits this would be row 0.
    has_place(&record, 0x07FF_FFF8, 0, (4095, 4095, 16_777_215));
    has_place(&record, 0x0800_0000, 0, (4096, 0, 16_777_216));
    has_place(&record, 0x0FFF_8000, 0, (8191, 0, 33_550_336));
    has_place(&record, 0x0FFF_FFF8, 0, (8191, 4095, 33_554_431));
}

/// 129 MB from 0: the last row is 128 * 32 + 31 = 4127, and w there
/// 128 * 2^17 + 2^17 - 1 = 16,777,216 + 131,071.
#[test]
fn the_shortest_from_megabyte_0() {
    let record = on(&[(3, 0, 128, 3)]);
    spans(&record, 3, 0, 128);
    has_place(&record, 0, 3, (0, 0, 0));
    has_place(&record, end_of(127), 3, (4095, 4095, 16_777_215));
    has_place(&record, mb(128), 3, (4096, 0, 16_777_216));
    has_place(&record, end_of(128), 3, (4127, 4095, 16_908_287));
}

/// One MB less and there are twelve row bits: 128 MB from MB 1 to 128. Row 32 comes
/// first; MB 128 has rows 0 to 31, the last w there being 131,071.
#[test]
fn twelve_row_bits_up_to_128_megabytes() {
    let record = on(&[(3, 1, 128, 3)]);
    spans(&record, 3, 1, 128);
    has_place(&record, mb(1), 3, (32, 0, 131_072));
    has_place(&record, end_of(127), 3, (4095, 4095, 16_777_215));
    has_place(&record, mb(128), 3, (0, 0, 0));
    has_place(&record, end_of(128), 3, (31, 4095, 131_071));
}

/// 256 MB from MB 100. Row 100 * 32 = 3200 comes first, w = 100 * 131,072. MB
/// 256 is row 0 again; MB 355 is 99 past it, so the last row is 99 * 32 + 31.
#[test]
fn all_rows_from_a_start_between_multiples() {
    let record = on(&[(7, 100, 355, 3)]);
    spans(&record, 7, 100, 355);
    has_place(&record, mb(100), 7, (3200, 0, 13_107_200));
    has_place(&record, end_of(255), 7, (8191, 4095, 33_554_431));
    has_place(&record, mb(256), 7, (0, 0, 0));
    has_place(&record, end_of(355), 7, (3199, 4095, 13_107_199));
}

/// 129 MB from MB 200. Row 200 * 32 = 6400, w = 200 * 131,072; MB 328 is 72 past
/// 256: row 72 * 32 + 31 = 2335, w = 73 * 131,072 - 1.
#[test]
fn the_shortest_over_a_multiple() {
    let record = on(&[(4, 200, 328, 3)]);
    spans(&record, 4, 200, 328);
    has_place(&record, mb(200), 4, (6400, 0, 26_214_400));
    has_place(&record, end_of(255), 4, (8191, 4095, 33_554_431));
    has_place(&record, mb(256), 4, (0, 0, 0));
    has_place(&record, end_of(328), 4, (2335, 4095, 9_568_255));
}

/// 255 MB from MB 769, one past 3 * 256, to the last MB of all: no wrap. Row 32,
/// w = 131,072; MB 1023 is 255 past 768.
#[test]
fn the_last_megabyte_of_all() {
    let record = on(&[(2, 769, 1023, 3)]);
    spans(&record, 2, 769, 1023);
    has_place(&record, 0x3010_0000, 2, (32, 0, 131_072));
    has_place(&record, 0x3FFF_FFF8, 2, (8191, 4095, 33_554_431));
    // 129 MB there: MB 895 is 127 past 768, row 127 * 32, w = 127 * 131,072.
    let record = on(&[(2, 895, 1023, 3)]);
    spans(&record, 2, 895, 1023);
    has_place(&record, 0x37F0_0000, 2, (4064, 0, 16_646_144));
    has_place(&record, 0x3FFF_FFF8, 2, (8191, 4095, 33_554_431));
}

/// 200 MB from MB 700 to 899: MB 768 is row 0. MB 700 is 188 past 512: row 6016,
/// w = 188 * 131,072. MB 899 is 131 past 768: row 4223, w = 132 * 131,072 - 1.
#[test]
fn a_length_between() {
    let record = on(&[(6, 700, 899, 3)]);
    spans(&record, 6, 700, 899);
    has_place(&record, mb(700), 6, (6016, 0, 24_641_536));
    has_place(&record, end_of(767), 6, (8191, 4095, 33_554_431));
    has_place(&record, mb(768), 6, (0, 0, 0));
    // 5 * 4096 + 3 doublewords of 8 bytes into MB 770: rows 64 on.
    let inside = mb(770) + 8 * (5 * 4096 + 3);
    has_place(&record, inside, 6, (69, 3, 282_627));
    has_place(&record, end_of(899), 6, (4223, 4095, 17_301_503));
}
