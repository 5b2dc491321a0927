//! ECC-1 to ECC-6 once more, worked out slowly and with nothing of the model.

use std::sync::LazyLock;

use model::Answer;

/// ECC-2, ECC-3: the columns of the 72 flip bits.
pub(crate) static COLUMNS: LazyLock<Vec<u8>> = LazyLock::new(|| {
    let mut columns = three_ones();
    columns.sort_unstable();
    columns.extend([31, 47, 55, 59, 61, 62, 79, 87]);
    columns.extend([1, 2, 4, 8, 16, 32, 64, 128]);
    columns
});

/// The sums of three different powers of two.
fn three_ones() -> Vec<u8> {
    let powers = [1, 2, 4, 8, 16, 32, 64, 128];
    let mut sums = Vec::new();
    for (one, first) in powers.iter().enumerate() {
        for (other, second) in powers[..one].iter().enumerate() {
            sums.extend(powers[..other].iter().map(|third| first + second + third));
        }
    }
    sums
}

/// ECC-1: whether a data bit is one.
fn is_one(data: &[u8; 8], bit: usize) -> bool {
    let from_the_low_end = 7 - bit % 8;
    data[bit / 8] / 2_u8.pow(from_the_low_end as u32) % 2 == 1
}

/// ECC-4
pub(crate) fn check_byte(data: &[u8; 8]) -> u8 {
    let ones = (0..64).filter(|&bit| is_one(data, bit));
    ones.fold(0, |check, bit| check ^ COLUMNS[bit])
}

/// MAP-8: data with its check byte.
pub(crate) fn right_cell(data: &[u8; 8]) -> [u8; 9] {
    let mut cell = [0; 9];
    cell[..8].copy_from_slice(data);
    cell[8] = check_byte(data);
    cell
}

/// ECC-1, ECC-3: a cell with one of its bits inverted.
pub(crate) fn inverted(mut cell: [u8; 9], bit: u8) -> [u8; 9] {
    let place = usize::from(bit);
    match place {
        0..64 => cell[place / 8] ^= [128, 64, 32, 16, 8, 4, 2, 1][place % 8],
        _ => cell[8] ^= [1, 2, 4, 8, 16, 32, 64, 128][place - 64],
    }
    cell
}

/// Data stored with one wrong bit.
pub(crate) fn spoilt(data: &[u8; 8], bit: u8) -> [u8; 9] {
    inverted(right_cell(data), bit)
}

/// ECC-6: what a syndrome means, looked up column by column.
pub(crate) fn meaning(syndrome: u8) -> Answer {
    let named = (0..).zip(COLUMNS.iter()).find(|&(_, &c)| c == syndrome);
    match (syndrome, named) {
        (0, _) => Answer::Clean,
        (_, Some((bit, _))) => Answer::Corrected(bit),
        (_, None) => Answer::Uncorrectable,
    }
}

/// ECC-7 turned round: the bits whose inversion alone makes a cell right.
pub(crate) fn repairs(cell: [u8; 9]) -> Vec<u8> {
    let is_right = |cell: [u8; 9]| {
        let (data, check) = (cell[..8].try_into().unwrap(), cell[8]);
        check_byte(data) == check
    };
    let mends = |&bit: &u8| is_right(inverted(cell, bit));
    (0..72).filter(mends).collect()
}
