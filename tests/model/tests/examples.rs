//! The worked examples: EX-1, EX-2, EX-3 to EX-8, EX-9, EX-10 and EX-11.

use model::code::{check_byte, reading, Reading};
use model::map::{alike, map, way_back, Column, Place, Row};
use model::{lines, Record, Refusal};

/// EX-3
fn two_banks() -> Record {
    let mut record = Record::fresh();
    for (offset, value) in [
        (0x90, 1),
        (0x81, 2),
        (0x91, 4),
        (0xA0, 3),
        (0xF0, 0b01_00),
        (0xF2, 8),
    ] {
        record.write_register(offset, value).unwrap();
    }
    record
}

/// Bank 0 alone, from MB 0, switched on from the registers.
fn one_bank(length_mb: u32, row_code: u8) -> Result<Record, Refusal> {
    let mut record = Record::fresh();
    let [last, last_extended, ..] = (length_mb - 1).to_le_bytes();
    record.write_register(0x90, last)?;
    record.write_register(0x98, last_extended)?;
    record.write_register(0xA0, 1)?;
    record.write_register(0xF0, row_code)?;
    record.write_register(0xF2, 8)?;
    Ok(record)
}

fn place(bank: u8, row: u32, column: u32, cell: u32) -> Place {
    Place {
        bank,
        row: Row(row),
        column: Column(column),
        cell,
    }
}

/// EX-1
#[test]
fn check_bytes() {
    assert_eq!(check_byte(&[0; 8]), 0x00);
    assert_eq!(check_byte(&[0x80, 0, 0, 0, 0, 0, 0, 0]), 0x07);
    assert_eq!(check_byte(&[0xFF, 0, 0, 0, 0, 0, 0, 0]), 0x06);
    assert_eq!(check_byte(&[0, 0, 0, 0, 0, 0, 0, 0x01]), 0x57);
    assert_eq!(check_byte(&[0xFF; 8]), 0xD8);
}

/// EX-2
#[test]
fn syndromes() {
    assert_eq!(reading(0x03), Reading::Uncorrectable);
    assert_eq!(reading(0x40), Reading::Corrected(70));
    assert_eq!(reading(0x1F), Reading::Corrected(56));
    assert_eq!(reading(0x00), Reading::Clean);
}

/// EX-4, EX-5, EX-6, EX-7
#[test]
fn addresses_of_two_banks() {
    let record = two_banks();
    assert_eq!(map(&record, 0x0000_1008), Ok(Some(place(0, 1, 1, 513))));
    let at_2_mb = map(&record, 0x0020_0000).unwrap().unwrap();
    assert_eq!(at_2_mb, place(1, 512, 0, 262_144 + 512 * 512));
    let at_4_mb = map(&record, 0x0040_0000);
    assert_eq!(at_4_mb, Ok(Some(place(1, 0, 0, 262_144))));
    assert_eq!(map(&record, 0x0050_0000), Ok(None));
    assert_eq!(map(&record, 0xFFFF_FFFF), Ok(None));
}

/// EX-8
#[test]
fn way_back_in_two_banks() {
    let record = two_banks();
    let back = |bank, row, column| way_back(&record, bank, Row(row), Column(column));
    assert_eq!(back(1, 256, 0), Err(Refusal::NoAddress));
    assert_eq!(back(1, 512, 0), Ok(0x0020_0000));
    assert_eq!(back(1, 0, 0), Ok(0x0040_0000));
    assert_eq!(back(0, 1, 1), Ok(0x0000_1008));
}

/// EX-9
#[test]
fn lengths_and_rows() {
    assert!(one_bank(2, 0).is_ok());
    assert_eq!(one_bank(3, 0), Err(Refusal::TooLong(0)));
    assert!(one_bank(128, 3).is_ok());
    assert!(one_bank(129, 3).is_ok());
    assert!(one_bank(256, 3).is_ok());
    assert_eq!(one_bank(257, 3), Err(Refusal::TooLong(0)));
}

/// ALIKE-2
#[test]
fn different_registers_can_be_alike() {
    let narrow = one_bank(1, 0).unwrap();
    let wide = one_bank(1, 1).unwrap();
    assert_ne!(narrow, wide);
    assert_eq!(alike(&narrow, &wide), Ok(true));
    assert_eq!(alike(&narrow, &two_banks()), Ok(false));
}

/// EX-10
#[test]
fn line_program() {
    let input = "c,90,01\nc,a0,01\nc,f2,08\nw,00000010,8000000000000000\n\
                 f,00000010,2\nr,00000010,8\ng,b8\nr,00200000,1\nr,00000007,2\n";
    let expected = "c,0\nc,0\nc,0\nw,0,p\nf,0\nr,0,c,2,8000000000000000\n\
                    g,0,01\nr,0,e,ff\nr,0,n,n,0000\n";
    let mut output = Vec::new();
    lines::run(input.as_bytes(), &mut output).unwrap();
    assert_eq!(String::from_utf8(output).unwrap(), expected);
}

/// EX-11
#[test]
fn slips_of_the_decoder() {
    // EX-11: no report while B8 and B9 are both 0.
    let mut record = two_banks();
    record.write_register(0xC0, 0x04).unwrap();
    let mut cells = vec![0; 18];
    let mut buffer = [0; 8];
    model::memory::read(&mut record, &cells, 0, &mut buffer).unwrap();
    assert_eq!(record.at(0xC1), 0);
    // EX-11: a short write merges into corrected bytes.
    model::memory::flip(&record, &mut cells, 0, 7).unwrap();
    model::memory::write(&mut record, &mut cells, 1, &[0xAA]).unwrap();
    model::memory::read(&mut record, &cells, 0, &mut buffer).unwrap();
    assert_eq!(buffer, [0, 0xAA, 0, 0, 0, 0, 0, 0]);
    assert_eq!((record.at(0xB8), record.at(0xC1)), (1, 0));
}
