//! MEM-17, MEM-18: which bytes the accesses of a split have, and what each
//! answers and does.

use model::memory::{flip, read, write};
use model::Answer::{self, Clean, Corrected, Stored, Uncorrectable};
use model::Answers::{Single, Split};

use crate::{cell, mixtures, set_up, splits, with_addresses, with_flips, LOWER, UPPER};

/// What both doublewords answer after none, one or two flips of [`with_flips`].
fn kinds(flips: [usize; 2]) -> [Answer; 2] {
    let [lower, upper] = flips;
    [
        [Clean, Corrected(63), Uncorrectable][lower],
        [Clean, Corrected(0), Uncorrectable][upper],
    ]
}

#[test]
fn a_split_read_has_the_bytes_of_both_doublewords() {
    let (mut record, cells) = with_addresses();
    let before = record;
    for (front, back) in splits() {
        let address = UPPER - front;
        let mut buffer = vec![0; (front + back) as usize];
        let answers = read(&mut record, &cells, address, &mut buffer);
        assert_eq!(answers, Ok(Split([Clean; 2])), "{address:02x}");
        let expected: Vec<u8> = (address as u8..(UPPER + back) as u8).collect();
        assert_eq!(buffer, expected);
        assert_eq!(record, before);
    }
}

/// MEM-4 is no rule for a split: none of its writes is answered "stored".
#[test]
fn a_split_write_puts_its_bytes_and_no_others() {
    for (front, back) in splits() {
        let (mut record, mut cells) = with_addresses();
        let before = record;
        let bytes: Vec<u8> = (0x80..).take((front + back) as usize).collect();
        let answers = write(&mut record, &mut cells, UPPER - front, &bytes);
        assert_eq!(answers, Ok(Split([Clean; 2])), "{front}, {back}");
        let mut expected: Vec<u8> = (0..0x60).collect();
        expected[(UPPER - front) as usize..(UPPER + back) as usize].copy_from_slice(&bytes);
        for (address, doubleword) in (0..).step_by(8).zip(expected.chunks(8)) {
            let mut buffer = [0; 8];
            let answers = read(&mut record, &cells, address, &mut buffer);
            assert_eq!(answers, Ok(Single(Clean)), "{address:02x}");
            assert_eq!(buffer, doubleword, "{address:02x}");
        }
        assert_eq!(record, before);
    }
}

/// EX-1 knows the check bytes of both cells.
#[test]
fn both_cells_of_a_split_write_get_their_check_bytes() {
    let (mut record, mut cells) = set_up();
    write(&mut record, &mut cells, UPPER - 1, &[0x01, 0x80]).unwrap();
    let mut expected = [[0; 9]; 12];
    expected[4] = [0, 0, 0, 0, 0, 0, 0, 0x01, 0x57];
    expected[5] = [0x80, 0, 0, 0, 0, 0, 0, 0, 0x07];
    assert_eq!(cells, expected.concat());
}

#[test]
fn what_ends_with_its_doubleword_is_no_split() {
    for start in 0..8 {
        for count in 1..=8 - start {
            let (mut record, mut cells) = with_addresses();
            let address = LOWER + start as u32;
            let answers = read(&mut record, &cells, address, &mut vec![0; count]);
            assert_eq!(answers, Ok(Single(Clean)), "{start}, {count}");
            let kind = if count == 8 { Stored } else { Clean };
            let answers = write(&mut record, &mut cells, address, &vec![0; count]);
            assert_eq!(answers, Ok(Single(kind)), "{start}, {count}");
        }
    }
}

/// Clean, corrected and uncorrectable accesses. The right bytes are read, or
/// where they are lost the stored ones.
#[test]
fn each_access_of_a_read_has_its_own_kind() {
    for flips in mixtures() {
        let (mut record, cells) = with_flips(flips);
        let mut buffer = [0; 8];
        let answers = read(&mut record, &cells, UPPER - 3, &mut buffer);
        assert_eq!(answers, Ok(Split(kinds(flips))));
        let last = if flips[0] == 2 { 0x00 } else { 1 };
        let first = if flips[1] == 2 { 0x82 } else { 2 };
        assert_eq!(buffer, [1, 1, last, first, 2, 2, 2, 2]);
    }
}

/// MEM-6: a lost cell stays as it is, and the other is written all the same.
#[test]
fn each_access_of_a_write_has_its_own_kind() {
    for flips in mixtures() {
        let (mut record, mut cells) = with_flips(flips);
        let mut expected = cells.clone();
        let answers = write(&mut record, &mut cells, UPPER - 3, &[9; 8]);
        assert_eq!(answers, Ok(Split(kinds(flips))));
        let lower = (LOWER, [1, 1, 1, 1, 1, 9, 9, 9]);
        let upper = (UPPER, [9, 9, 9, 9, 9, 2, 2, 2]);
        for ((address, bytes), flips) in [lower, upper].into_iter().zip(flips) {
            if flips < 2 {
                write(&mut record, &mut expected, address, &bytes).unwrap();
            }
        }
        assert_eq!(cells, expected, "{flips:?}");
    }
}

/// MEM-5, EX-11: whichever bits are wrong, they are put right before the bytes
/// are merged in, on both sides.
#[test]
fn a_split_write_merges_into_corrected_bytes() {
    for (front, back) in splits() {
        let (record, right) = with_addresses();
        let count = (front + back) as usize;
        let mut expected = right.clone();
        write(
            &mut record.clone(),
            &mut expected,
            UPPER - front,
            &vec![0xEE; count],
        )
        .unwrap();
        for bit in 0..72 {
            let (mut record, mut cells) = (record, right.clone());
            flip(&record, &mut cells, LOWER, bit).unwrap();
            flip(&record, &mut cells, UPPER, 71 - bit).unwrap();
            let answers = write(&mut record, &mut cells, UPPER - front, &vec![0xEE; count]);
            let corrected = [Corrected(bit), Corrected(71 - bit)];
            assert_eq!(answers, Ok(Split(corrected)), "{front}, {back}");
            assert_eq!(cells, expected, "{front}, {back}, {bit}");
            assert_eq!(record.at(0xB8), 2);
        }
    }
}

/// MEM-3: a correction is not written back.
#[test]
fn a_split_read_leaves_the_cells() {
    let (mut record, cells) = with_flips([1, 1]);
    for _ in 0..3 {
        let answers = read(&mut record, &cells, UPPER - 1, &mut [0; 2]);
        assert_eq!(answers, Ok(Split([Corrected(63), Corrected(0)])));
    }
    assert_eq!(record.at(0xB8), 6);
    // The bits of `with_flips`, still wrong: the last data bit and the first.
    assert_eq!((cell(&cells, 4)[7], cell(&cells, 5)[0]), (0, 0x82));
}
