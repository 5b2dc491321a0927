//! What each side of a row works on, and how the sides are compared after it.
use crate::setups::Setup;
use model::gen::Rng;
use model::{memory, Record};
use mpc106::{CELL_BYTES, LINE_BYTES};
use std::hint::black_box;
use std::ops::Range;

/// The number of doublewords that the calls of a row touch.
pub const DOUBLEWORDS: u32 = 1024;

/// What was done to each doubleword before a row.
#[derive(Clone, Copy)]
pub enum Flips {
    None,
    One,
    Two,
    /// One, in every second doubleword.
    OneOfTwo,
    /// One, in one of the four doublewords of each line.
    OneInLine,
}

/// What one side works on. The numbers are an answer, or a place.
#[derive(Clone)]
pub struct Machine {
    pub record: Record,
    pub cells: Vec<u8>,
    pub buffer: [u8; LINE_BYTES],
    pub numbers: [u32; 5],
}

/// Random bytes in each of the doublewords, with some bits inverted.
pub fn machine(setup: &Setup, flips: Flips) -> Machine {
    let mut rng = Rng::new(7);
    let mut record = setup.record;
    let layout = model::map::judge(&record).expect("memory is on");
    let mut cells = vec![0; layout.cells() as usize * CELL_BYTES];
    for k in 0..DOUBLEWORDS {
        let address = setup.address + 8 * k;
        let bytes = rng.next_u64().to_le_bytes();
        memory::write(&mut record, &mut cells, address, &bytes).expect("a write");
        let first = rng.below(72);
        let second = (first + 1 + rng.below(71)) % 72;
        let bits: &[u32] = match flips {
            Flips::One => &[first],
            Flips::Two => &[first, second],
            Flips::OneOfTwo if k % 2 == 0 => &[first],
            Flips::OneInLine if k % 4 == k / 4 % 4 => &[first],
            Flips::None | Flips::OneOfTwo | Flips::OneInLine => &[],
        };
        for &bit in bits {
            memory::flip(&record, &mut cells, address, bit as u8).expect("a flip");
        }
    }
    // All different, so that a burst whose beats are in another order leaves other cells.
    let buffer = std::array::from_fn(|i| i as u8);
    Machine {
        record,
        cells,
        buffer,
        numbers: [0; 5],
    }
}

/// Answers, flip bits of corrections among them, and places are compared only if both sides write them down.
pub fn is_same(a: &Machine, b: &Machine, cells: &Range<usize>) -> bool {
    a.record == b.record
        && a.buffer == b.buffer
        && a.cells[cells.clone()] == b.cells[cells.clone()]
        && (b.numbers == [0; 5] || a.numbers == b.numbers)
}

/// The last call found its cell corrected: the low byte of its part says so.
pub fn is_corrected(machine: &Machine) -> bool {
    machine.numbers[1] % 256 == 2
}

/// The bytes of the cells of the doublewords that the calls touch; these cells are next to each other.
pub fn touched(setup: &Setup) -> Range<usize> {
    let place = model::map::map(&setup.record, setup.address);
    let first = place.expect("memory is on").expect("a bank").cell as usize;
    first * CELL_BYTES..(first + DOUBLEWORDS as usize) * CELL_BYTES
}

pub type Sides<'a> = (&'a mut Machine, &'a mut Machine, &'a mut Machine);

/// Keeps the compiler from leaving out a call whose answer nobody reads.
pub fn used<T>(answer: T) {
    black_box(answer);
}
