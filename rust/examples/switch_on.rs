//! Switches on two banks (bank 0: megabytes 0 to 1, 9 row bits; bank 1: megabytes 2 to 4, 10 row bits),
//! writes, inverts bits, reads, loads an image, and prints the answers, just as `examples/switch_on.c` does.
//!
//! Run `tools/prove mpc106` in the root of the repository, then `cargo run --example switch_on` in `rust/`.
use mpc106::{offset, Answer, Column, Kind, Memory, Record, Refusal, Row};

fn kind_text(kind: Kind) -> String {
    match kind {
        Kind::Clean => "clean".to_string(),
        Kind::Corrected(bit) => format!("corrected bit {bit}"),
        Kind::Uncorrectable => "uncorrectable".to_string(),
        Kind::Stored => "stored".to_string(),
        Kind::NoBank => "no bank".to_string(),
        Kind::Unknown(number) => format!("unknown {number:#x}"),
    }
}

/// The answer of a call in words, or its refusal.
fn text<T>(given: Result<T, Refusal>, words: impl Fn(T) -> String) -> String {
    given.map_or_else(|x| format!("refusal {}, {x}", x.number()), words)
}

fn answer_text(given: Result<Answer, Refusal>) -> String {
    text(given, |answer| {
        let kinds: Vec<String> = answer.kinds().map(kind_text).collect();
        kinds.join(", ")
    })
}

fn set_register(record: &mut Record, offset: u32, value: u8) {
    let given = record.write_register(offset, value);
    println!(
        "register {offset:02x} = {value:02x}: {}",
        text(given, |()| "accepted".to_string())
    );
}

fn show_register(record: &Record, offset: u32) {
    let given = record.read_register(offset);
    println!(
        "register {offset:02x}: {}",
        text(given, |value| format!("{value:02x}"))
    );
}

fn show_error_address(record: &Record) {
    println!("error address: {:08x}", record.error_address());
}

fn show_place(record: &Record, address: u32) {
    let given = text(record.map(address), |place| match place {
        Some(p) => format!(
            "bank {}, row {}, column {}, cell {}",
            p.bank, p.row.0, p.column.0, p.cell
        ),
        None => "no bank".to_string(),
    });
    println!("map {address:08x}: {given}");
}

fn show_address(record: &Record, bank: u32, row: u32, column: u32) {
    let given = record.way_back(bank, Row(row), Column(column));
    let given = text(given, |address| format!("{address:08x}"));
    println!("way back bank {bank}, row {row}, column {column}: {given}");
}

fn read<const COUNT: usize>(memory: &mut Memory, address: u32) {
    let mut buffer = [0; COUNT];
    let given = memory.read(address, &mut buffer);
    println!("read {address:08x}: {}", answer_text(given));
    if given.is_ok() {
        println!("{}", buffer.map(|byte| format!(" {byte:02x}")).concat());
    }
}

fn write(memory: &mut Memory, address: u32, bytes: &[u8]) {
    let given = memory.write(address, bytes);
    println!("write {address:08x}: {}", answer_text(given));
}

/// As the processor of the board reads a word: one number, whichever doublewords its bytes are in.
fn read_word(memory: &mut Memory, address: u32) {
    let given = memory.read_u32(address);
    let given = text(given, |(word, answer)| {
        format!("{word:08x}, {}", kind_text(answer.worst_kind()))
    });
    println!("word {address:08x}: {given}");
}

fn load(memory: &mut Memory, address: u32, image: &[u8]) {
    let (stored, end) = match memory.load(address, image) {
        Ok(()) => (image.len(), String::new()),
        Err(error) => (error.stored, format!(", {}", text(error.given, kind_text))),
    };
    println!("load {address:08x}: {stored} of {} bytes{end}", image.len());
}

fn flip(memory: &mut Memory, address: u32, bit: u32) {
    let given = memory.flip(address, bit);
    println!(
        "flip {address:08x}: {}",
        text(given, |()| "flipped".to_string())
    );
}

fn scrub(memory: &mut Memory, address: u32) {
    let given = memory.scrub(address);
    println!("scrub {address:08x}: {}", answer_text(given));
}

fn switch_on() -> Record {
    let mut record = Record::fresh();
    let mut set = |offset, value| set_register(&mut record, offset, value);
    set(offset::END, 1); // bank 0: last megabyte
    set(offset::START + 1, 2); // bank 1: start
    set(offset::END + 1, 1); // and an end below it
    set(offset::ROW_CODES, 0x04); // bank 0 has 9 row bits, bank 1 10
    set(offset::BANK_ENABLE, 0x03); // both enabled
    set(offset::MEMORY, 8); // refused, for bank 1
    set(offset::END + 1, 4);
    set(offset::MEMORY, 8); // memory on
    set(offset::BANK_ENABLE, 0x01); // refused: memory is on
    set(offset::ERROR_ENABLE_1, 0x20); // report addresses without a bank
    record
}

fn map_both_ways(record: &Record) {
    show_place(record, 0x0000_1008);
    show_place(record, 0x0020_0000);
    show_place(record, 0x0040_0000);
    show_place(record, 0x0050_0000);
    show_address(record, 1, 512, 0);
    show_address(record, 1, 256, 0);
}

fn turn_bits_over(memory: &mut Memory) {
    write(memory, 0x0000_1008, &[0x80, 1, 2, 3, 4, 5, 6, 7]);
    flip(memory, 0x0000_1008, 2);
    read::<8>(memory, 0x0000_1008);
    show_register(&memory.record, offset::SINGLE_BIT_COUNTER);
    write(memory, 0x0000_100a, &[0xca, 0xfe]);
    read::<8>(memory, 0x0000_1008);
    flip(memory, 0x0000_1008, 0);
    flip(memory, 0x0000_1008, 71);
    read::<1>(memory, 0x0000_1008);
    flip(memory, 0x0000_1008, 0);
    scrub(memory, 0x0000_1008);
    read::<2>(memory, 0x0000_100a);
}

/// Two bytes of each call lie in one doubleword and two in the next, so its answer has two parts.
fn run_into_the_next(memory: &mut Memory) {
    write(memory, 0x0000_1006, &[0xde, 0xad, 0xbe, 0xef]);
    flip(memory, 0x0000_1008, 5);
    read::<4>(memory, 0x0000_1006);
    read::<4>(memory, 0x004f_fffe);
    show_register(&memory.record, offset::ERROR_DETECTION_1);
    show_error_address(&memory.record);
    // clears the bit, so that the next one is reported too
    set_register(&mut memory.record, offset::ERROR_DETECTION_1, 0x20);
}

fn leave_the_banks(memory: &mut Memory) {
    read::<2>(memory, 0x0050_0000);
    show_register(&memory.record, offset::ERROR_DETECTION_1);
    show_error_address(&memory.record);
    read::<2>(memory, 0xffff_ffff);
    flip(memory, 0x0000_1008, 72);
}

/// The second image runs past the last bank; what is before its end is stored.
fn load_images(memory: &mut Memory) {
    let image = [1, 2, 3, 4, 5, 6, 7, 8, 9, 10, 11, 12];
    load(memory, 0x0000_1ffa, &image);
    read_word(memory, 0x0000_1ffe);
    load(memory, 0x004f_fffa, &image);
    read_word(memory, 0x004f_fffe);
}

/// Numbers that would be in range if they were cut to a byte.
fn go_out_of_range(memory: &mut Memory) {
    flip(memory, 0x0000_1008, 261);
    show_register(&memory.record, 0x180);
    show_address(&memory.record, 256, 0, 0);
}

fn main() -> Result<(), Refusal> {
    let record = switch_on();
    println!("cells: {}", record.cell_count()?);
    let mut memory = Memory::new(record)?;
    map_both_ways(&memory.record);
    turn_bits_over(&mut memory);
    run_into_the_next(&mut memory);
    leave_the_banks(&mut memory);
    load_images(&mut memory);
    go_out_of_range(&mut memory);
    Ok(())
}
