//! MEM-14, MEM-15: where beats are, and what each answers.

use model::memory::{burst_read, burst_write, write};
use model::{Answer, Record};

use crate::{beats, error_address, reported, set_up, with_flips, KNOWN_CELLS, LINE, ORDERS};

#[test]
fn a_burst_read_starts_at_its_address_and_wraps() {
    let (mut record, mut cells) = set_up();
    // Each byte is its own address.
    for address in (0..0x60).step_by(8) {
        let bytes: Vec<u8> = (address as u8..).take(8).collect();
        write(&mut record, &mut cells, address, &bytes).unwrap();
    }
    let before = record;
    for (address, doublewords) in [
        (0x20, [0x20..0x28, 0x28..0x30, 0x30..0x38, 0x38..0x40]),
        (0x28, [0x28..0x30, 0x30..0x38, 0x38..0x40, 0x20..0x28]),
        (0x30, [0x30..0x38, 0x38..0x40, 0x20..0x28, 0x28..0x30]),
        (0x38, [0x38..0x40, 0x20..0x28, 0x28..0x30, 0x30..0x38]),
    ] {
        let expected: Vec<u8> = doublewords.into_iter().flatten().collect();
        let mut buffer = [0; 32];
        let answers = burst_read(&mut record, &cells, address, &mut buffer);
        assert_eq!(answers, Ok([Answer::Clean; 4]));
        assert_eq!(buffer[..], expected, "{address:02x}");
        assert_eq!(record, before);
    }
}

#[test]
fn a_burst_write_starts_at_its_address_and_wraps() {
    let bytes: Vec<u8> = KNOWN_CELLS
        .iter()
        .flat_map(|cell| &cell[..8])
        .copied()
        .collect();
    // EX-2: syndrome 03, so a write that looked at the old cells would show it.
    let old = [0, 0, 0, 0, 0, 0, 0, 0, 0x03];
    for (address, order) in [
        (0x20, [4, 5, 6, 7]),
        (0x28, [5, 6, 7, 4]),
        (0x30, [6, 7, 4, 5]),
        (0x38, [7, 4, 5, 6]),
    ] {
        let (mut record, _) = set_up();
        let before = record;
        let mut cells = old.repeat(12);
        let answers = burst_write(&mut record, &mut cells, address, &bytes);
        assert_eq!(answers, Ok([Answer::Stored; 4]));
        let mut expected = [old; 12];
        for (k, cell) in order.into_iter().zip(KNOWN_CELLS) {
            expected[k] = cell;
        }
        assert_eq!(cells, expected.concat(), "{address:02x}");
        assert_eq!(record, before);
    }
}

/// MEM-15: clean, corrected and uncorrectable beats in one burst.
#[test]
fn each_beat_has_its_own_kind() {
    let line = [
        (Answer::Clean, [1; 8]),
        (Answer::Corrected(0), [2; 8]),
        (Answer::Clean, [3; 8]),
        (Answer::Uncorrectable, [0x84, 4, 4, 4, 4, 4, 4, 4]),
    ];
    let (start, cells) = with_flips([0, 1, 0, 2]);
    for order in ORDERS {
        let mut record = start;
        let mut buffer = [0; 32];
        let answers = burst_read(&mut record, &cells, LINE + 8 * order[0], &mut buffer);
        assert_eq!(answers, Ok(order.map(|n| line[n as usize].0)));
        assert_eq!(buffer[..], order.map(|n| line[n as usize].1).concat());
        assert_eq!(reported(&record), [1, 0, 0x08]);
    }
    let (mut record, mut cells) = (start, cells);
    let answers = burst_write(&mut record, &mut cells, LINE, &[7; 32]);
    assert_eq!((answers, record), (Ok([Answer::Stored; 4]), start));
    let answers = burst_read(&mut record, &cells, LINE, &mut [0; 32]);
    assert_eq!((answers, record), (Ok([Answer::Clean; 4]), start));
}

/// No cell is lent, and address 0 has a bank: a beat that went on past the end
/// of the address space would get 9.
#[test]
fn no_bank_at_the_end_of_the_address_space() {
    let (start, _) = set_up();
    for address in [0xFFFF_FFE0, 0xFFFF_FFE8, 0xFFFF_FFF0, 0xFFFF_FFF8] {
        let mut record = start;
        let mut buffer = [0; 32];
        let answers = burst_read(&mut record, &[], address, &mut buffer);
        assert_eq!(answers, Ok([Answer::NoBank; 4]));
        assert_eq!(buffer, [0xFF; 32]);
        assert_eq!(reported(&record), [0, 0x20, 0]);
        assert_eq!(error_address(&record), address);
        let mut written = start;
        let answers = burst_write(&mut written, &mut [], address, &[1; 32]);
        assert_eq!(answers, Ok([Answer::NoBank; 4]));
        assert_eq!(written, record);
        let mut record = start;
        record.set(0xC0, 0xDF);
        let before = record;
        burst_read(&mut record, &[], address, &mut [0; 32]).unwrap();
        burst_write(&mut record, &mut [], address, &[1; 32]).unwrap();
        assert_eq!(record, before);
    }
}

/// A beat that left its line would leave the bank, or enter it.
#[test]
fn bursts_at_both_ends_of_a_span() {
    let mut record = Record::fresh();
    for (offset, value) in [(0x83, 1), (0x93, 1), (0xA0, 8), (0xF2, 8)] {
        record.write_register(offset, value).unwrap();
    }
    let mut cells = vec![0; 9 << 17];
    for (line, read, written) in [
        (0x000F_FFE0, Answer::NoBank, Answer::NoBank),
        (0x0010_0000, Answer::Clean, Answer::Stored),
        (0x001F_FFE0, Answer::Clean, Answer::Stored),
        (0x0020_0000, Answer::NoBank, Answer::NoBank),
    ] {
        for first in beats(line) {
            let answers = burst_write(&mut record, &mut cells, first, &[5; 32]);
            assert_eq!(answers, Ok([written; 4]), "{first:08x}");
            let answers = burst_read(&mut record, &cells, first, &mut [0; 32]);
            assert_eq!(answers, Ok([read; 4]), "{first:08x}");
        }
    }
    // Two lines of cells were written: the first four and the last four.
    let written = |k: &usize| cells[9 * k] == 5;
    let seen: Vec<usize> = (0..1 << 17).filter(written).collect();
    let last = (1 << 17) - 4;
    assert_eq!(seen, [0, 1, 2, 3, last, last + 1, last + 2, last + 3]);
}
