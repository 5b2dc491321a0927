//! MEM-18: accesses in one bank, in two, and in none.

use model::memory::{flip, read, write};
use model::Answer::{self, Clean, NoBank, Uncorrectable};
use model::Answers::Split;
use model::Record;

use crate::{cell, error_address, reported, set_up, splits};

fn switched_on(registers: &[(u8, u8)]) -> Record {
    let mut record = Record::fresh();
    for &(offset, value) in registers {
        record.write_register(offset, value).unwrap();
    }
    for (offset, value) in [(0xC0, 0x24), (0xC4, 0x08), (0xF2, 8)] {
        record.write_register(offset, value).unwrap();
    }
    record
}

/// EX-3: bank 0 has MB 0 to 1 and cells 0 to 262,143; bank 1 has MB 2 to 4 and
/// the 524,288 cells from there on.
fn two_banks() -> Record {
    switched_on(&[(0x90, 1), (0x81, 2), (0x91, 4), (0xA0, 3), (0xF0, 0b01_00)])
}

/// Bank 0: MB 1, with cells 0 to 131,071. Bank 1: MB 0, with as many after them.
fn upper_bank_first() -> Record {
    switched_on(&[(0x80, 1), (0x90, 1), (0xA0, 3)])
}

/// Bank 3 alone: MB 1.
fn lone_megabyte() -> Record {
    switched_on(&[(0x83, 1), (0x93, 1), (0xA0, 8)])
}

/// Writes and reads over an edge, with all splits. Only the two cells change,
/// and of a read only the bytes without a bank are FF.
fn over_edge(record: &Record, cells: &mut [u8], edge: u32, places: [Option<usize>; 2]) {
    let kinds = places.map(|place| place.map_or(NoBank, |_| Clean));
    for (front, back) in splits() {
        let bytes: Vec<u8> = (1..=(front + back) as u8).collect();
        let answers = write(&mut record.clone(), cells, edge - front, &bytes);
        assert_eq!(answers, Ok(Split(kinds)), "{edge:08x}");
        let (before, behind) = bytes.split_at(front as usize);
        if let Some(k) = places[0] {
            assert_eq!(cell(cells, k)[8 - before.len()..8], *before, "{edge:08x}");
        }
        if let Some(k) = places[1] {
            assert_eq!(cell(cells, k)[..behind.len()], *behind, "{edge:08x}");
        }
        let mut buffer = vec![0x77; bytes.len()];
        let answers = read(&mut record.clone(), cells, edge - front, &mut buffer);
        assert_eq!(answers, Ok(Split(kinds)), "{edge:08x}");
        let seen = |place: Option<usize>, bytes: &[u8]| match place {
            Some(_) => bytes.to_vec(),
            None => vec![0xFF; bytes.len()],
        };
        assert_eq!(
            buffer,
            [seen(places[0], before), seen(places[1], behind)].concat()
        );
    }
    for k in places.into_iter().flatten() {
        cells[9 * k..9 * k + 9].fill(0);
    }
    assert!(cells.iter().all(|&byte| byte == 0), "{edge:08x}");
}

#[test]
fn splits_over_each_kind_of_edge() {
    let mut cells = vec![0; 9 * 786_432];
    for (edge, places) in [
        // In a bank, and at the end of a megabyte of it.
        (0x0000_0008, [Some(0), Some(1)]),
        (0x0010_0000, [Some(131_071), Some(131_072)]),
        (0x0030_0000, [Some(655_359), Some(655_360)]),
        // MAP-3: the cells of bank 1 begin again.
        (0x0040_0000, [Some(786_431), Some(262_144)]),
        // From bank 0 into bank 1, from there into none.
        (0x0020_0000, [Some(262_143), Some(524_288)]),
        (0x0050_0000, [Some(393_215), None]),
        (0x0060_0000, [None; 2]),
        (0x4000_0000, [None; 2]),
        (0xFFFF_FFF8, [None; 2]),
    ] {
        over_edge(&two_banks(), &mut cells, edge, places);
    }
    let cells = &mut cells[..9 * 262_144];
    over_edge(
        &upper_bank_first(),
        cells,
        0x0010_0000,
        [Some(262_143), Some(0)],
    );
    over_edge(
        &upper_bank_first(),
        cells,
        0x0020_0000,
        [Some(131_071), None],
    );
    let cells = &mut cells[..9 * 131_072];
    over_edge(&lone_megabyte(), cells, 0x0010_0000, [None, Some(0)]);
    over_edge(&lone_megabyte(), cells, 0x0020_0000, [Some(131_071), None]);
}

/// A read and a write of two bytes; both must report the same.
fn two_bytes(record: &Record, cells: &mut [u8], address: u32, kinds: [Answer; 2]) -> Record {
    let (mut after_read, mut after_write) = (*record, *record);
    let answers = read(&mut after_read, cells, address, &mut [0; 2]);
    assert_eq!(answers, Ok(Split(kinds)), "{address:08x}");
    let answers = write(&mut after_write, cells, address, &[0; 2]);
    assert_eq!(answers, Ok(Split(kinds)), "{address:08x}");
    assert_eq!(after_read, after_write);
    after_read
}

/// ERR-3, ERR-5: "no bank" is reported with the address of its own access: of
/// the first as given, of the second that of its doubleword.
#[test]
fn no_bank_is_reported_with_its_own_address() {
    let record = lone_megabyte();
    let mut cells = vec![0; 9 << 17];
    let mut at = |address, kinds| {
        let after = two_bytes(&record, &mut cells, address, kinds);
        assert_eq!(reported(&after), [0, 0x20, 0]);
        error_address(&after)
    };
    assert_eq!(at(0x000F_FFFF, [NoBank, Clean]), 0x000F_FFFF);
    assert_eq!(at(0x001F_FFFF, [Clean, NoBank]), 0x0020_0000);
    assert_eq!(at(0x0020_0007, [NoBank; 2]), 0x0020_0007);
    let mut quiet = record;
    quiet.set(0xC0, 0xDF);
    let after = two_bytes(&quiet, &mut cells, 0x000F_FFFF, [NoBank, Clean]);
    assert_eq!(after, quiet);
}

/// The first report keeps its address; the second only sets its bit.
#[test]
fn no_bank_beside_uncorrectable() {
    let mut record = lone_megabyte();
    let mut cells = vec![0; 9 << 17];
    for address in [0x0010_0000, 0x001F_FFF8] {
        flip(&record, &mut cells, address, 1).unwrap();
        flip(&record, &mut cells, address, 2).unwrap();
    }
    let spoilt = cells.clone();
    let into = two_bytes(&record, &mut cells, 0x000F_FFFF, [NoBank, Uncorrectable]);
    assert_eq!(reported(&into), [0, 0x20, 0x08]);
    assert_eq!(error_address(&into), 0x000F_FFFF);
    let out = two_bytes(&record, &mut cells, 0x001F_FFFF, [Uncorrectable, NoBank]);
    assert_eq!(reported(&out), [0, 0x20, 0x08]);
    assert_eq!(error_address(&out), 0x001F_FFFF);
    // With one of the two reports switched off, the other gives its address.
    record.set(0xC0, 0);
    let into = two_bytes(&record, &mut cells, 0x000F_FFFF, [NoBank, Uncorrectable]);
    assert_eq!(reported(&into), [0, 0, 0x08]);
    assert_eq!(error_address(&into), 0x0010_0000);
    record.set(0xC0, 0x20);
    record.set(0xC4, 0);
    let out = two_bytes(&record, &mut cells, 0x001F_FFFF, [Uncorrectable, NoBank]);
    assert_eq!(reported(&out), [0, 0x20, 0]);
    assert_eq!(error_address(&out), 0x0020_0000);
    assert_eq!(cells, spoilt);
}

/// No cell is lent, and address 0 has a bank: an access that went on past the
/// end of the address space would get 9.
#[test]
fn splits_into_the_last_doubleword() {
    let (start, _) = set_up();
    for (front, back) in splits() {
        let address = 0xFFFF_FFF8 - front;
        let count = (front + back) as usize;
        let mut record = start;
        let mut buffer = vec![0; count];
        let answers = read(&mut record, &[], address, &mut buffer);
        assert_eq!(answers, Ok(Split([NoBank; 2])));
        assert_eq!(buffer, vec![0xFF; count]);
        assert_eq!(error_address(&record), address);
        let answers = write(&mut start.clone(), &mut [], address, &vec![0; count]);
        assert_eq!(answers, Ok(Split([NoBank; 2])));
    }
}
