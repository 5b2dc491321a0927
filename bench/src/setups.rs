//! The set-ups: how many banks are enabled and where they are, and the bank that the calls go to.
use model::Record;

/// A bank's start and last megabyte, and its row code.
struct Span(u8, u8, u8);

pub struct Setup {
    pub name: &'static str,
    pub record: Record,
    /// The first address of the bank that the calls go to.
    pub address: u32,
}

/// Two megabytes with 9 row bits.
fn one_bank() -> Vec<Span> {
    vec![Span(0, 1, 0)]
}

/// 256 megabytes with 13 row bits.
fn one_long_bank() -> Vec<Span> {
    vec![Span(0, 255, 3)]
}

fn two_banks() -> Vec<Span> {
    vec![Span(0, 1, 0), Span(2, 4, 1)]
}

/// Lengths of 2 and 3 megabytes by turns, with 9 and 10 row bits; the banks are placed in this order.
fn eight_banks(order: [usize; 8]) -> Vec<Span> {
    let mut next = 0;
    let mut spans: Vec<Span> = (0..8).map(|_| Span(0, 0, 0)).collect();
    for bank in order {
        let odd = bank as u8 % 2;
        spans[bank] = Span(next, next + 1 + odd, odd);
        next += 2 + odd;
    }
    spans
}

/// The record before memory is switched on, with error reporting enabled.
fn record(spans: &[Span]) -> Record {
    let mut record = Record::fresh();
    let mut set = |offset: usize, value: u8| {
        let offset = u8::try_from(offset).expect("an offset");
        record
            .write_register(offset, value)
            .expect("the set-up is accepted");
    };
    let mut codes = 0u16;
    for (bank, Span(start, end, code)) in spans.iter().enumerate() {
        set(0x80 + bank, *start);
        set(0x90 + bank, *end);
        codes |= u16::from(*code) << (2 * bank);
    }
    let [low, high] = codes.to_le_bytes();
    set(0xf0, low);
    set(0xf1, high);
    set(0xa0, (0xff >> (8 - spans.len())) as u8);
    set(0xc0, 0x24);
    set(0xc4, 0x08);
    record
}

fn setup(name: &'static str, spans: &[Span], bank: usize) -> Setup {
    let mut record = record(spans);
    record
        .write_register(0xf2, 8)
        .expect("the set-up is accepted");
    let address = u32::from(spans[bank].0) << 20;
    Setup {
        name,
        record,
        address,
    }
}

pub fn all() -> Vec<Setup> {
    let ordered = eight_banks([0, 1, 2, 3, 4, 5, 6, 7]);
    let unordered = eight_banks([3, 0, 6, 1, 7, 4, 2, 5]);
    vec![
        setup("1 bank", &one_bank(), 0),
        setup("1 bank, 13 row bits", &one_long_bank(), 0),
        setup("2 banks, lowest", &two_banks(), 0),
        setup("2 banks, highest", &two_banks(), 1),
        setup("8 banks in order, lowest", &ordered, 0),
        setup("8 banks in order, highest", &ordered, 7),
        setup("8 banks in no order, lowest", &unordered, 0),
        setup("8 banks in no order, highest", &unordered, 7),
    ]
}

/// Two banks, not yet switched on.
pub fn two_banks_off() -> Record {
    record(&two_banks())
}
