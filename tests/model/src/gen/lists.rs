//! Random lists of memory calls and error-register calls for the comparison
//! with the flat machine.

mod condition;
mod places;

pub use condition::keeps_condition;

use std::collections::HashSet;

use super::{edges, Rng};
use crate::calls::Call;
use crate::flat::{doubleword, FlatMachine};
use crate::map;
use crate::record::Record;
use places::Places;

/// Lengths that a burst does not take; 288 is 32 in eight bits.
const BAD_LENGTHS: [usize; 10] = [0, 1, 8, 16, 24, 31, 33, 40, 64, 288];

/// A list that meets LIST-6, for a record that was just switched on.
pub fn list(rng: &mut Rng, record: &Record, length: usize) -> Vec<Call> {
    list_in_lent(rng, record, u32::MAX, length)
}

/// The same, keeping to that many lent cells, at least one: a set-up of long
/// banks has more than anyone cares to lend. The outcomes are those of a list
/// with every cell lent, since it never gets to another.
pub fn list_in_lent(rng: &mut Rng, record: &Record, lent_cells: u32, length: usize) -> Vec<Call> {
    let layout = map::switched_on(record).expect("a record just switched on");
    let flat = FlatMachine::of_record(record).expect("a record just switched on");
    let places = Places::choose(rng, &layout, lent_cells);
    let mut list = ListMaker {
        rng,
        places,
        flat,
        flipped: HashSet::new(),
        calls: Vec::with_capacity(length),
    };
    while list.calls.len() < length {
        list.add();
    }
    list.calls
}

struct ListMaker<'a> {
    rng: &'a mut Rng,
    places: Places,
    /// Only its spans are used.
    flat: FlatMachine,
    /// Doublewords that took a flip and no write or scrub since.
    flipped: HashSet<u32>,
    calls: Vec<Call>,
}

impl ListMaker<'_> {
    fn address(&mut self) -> u32 {
        self.rng.pick(&self.places.hot) + self.rng.below(8)
    }

    fn add(&mut self) {
        match self.rng.below(26) {
            0..=4 => self.add_read(),
            5..=9 => self.add_write(),
            10..=14 => self.add_flip(),
            15..=17 => self.add_scrub(),
            18..=20 => self.add_burst_read(),
            21..=23 => self.add_burst_write(),
            _ => self.add_register_call(),
        }
    }

    /// Address and count of a read or write: many splits, few bad counts.
    fn access(&mut self) -> (u32, usize) {
        let address = self.address();
        match self.rng.below(20) {
            0 => (address, 0),
            1 => (address, 9 + self.rng.below(20) as usize),
            2 | 3 => edges::split(self.rng, address & !7),
            4..=7 => {
                let edge = self.rng.pick(&self.places.edges);
                edges::split(self.rng, edge)
            }
            8..=11 => (address & !7, 8),
            _ => (address, 1 + self.rng.below(8 - address % 8) as usize),
        }
    }

    fn add_read(&mut self) {
        let (address, count) = self.access();
        self.calls.push(Call::Read { address, count });
    }

    fn add_write(&mut self) {
        let (address, count) = self.access();
        self.push_write(address, count);
    }

    /// LIST-6: an accepted split write writes both of its doublewords.
    fn push_write(&mut self, address: u32, count: usize) {
        let bytes = self.rng.bytes(count);
        let end = u64::from(address) + count as u64;
        if (1..=8).contains(&count) && end <= 1 << 32 {
            self.flipped.remove(&doubleword(address));
            self.flipped.remove(&doubleword((end - 1) as u32));
        }
        self.calls.push(Call::Write { address, bytes });
    }

    fn add_scrub(&mut self) {
        let address = self.address();
        self.flipped.remove(&doubleword(address));
        self.calls.push(Call::Scrub { address });
    }

    /// A starting doubleword in the line of a hot address.
    fn line_start(&mut self, address: u32) -> u32 {
        (address & !31) + 8 * self.rng.below(4)
    }

    /// Address and length of a burst, mostly accepted. One kind of refused ones
    /// has both faults, so that the order of 19 and 20 is seen.
    fn burst(&mut self) -> (u32, usize) {
        let hot = self.address();
        let aligned = self.line_start(hot);
        let misaligned = aligned + 1 + self.rng.below(7);
        let bad_length = self.rng.pick(&BAD_LENGTHS);
        match self.rng.below(12) {
            0 => (misaligned, 32),
            1 => (aligned, bad_length),
            2 => (misaligned, bad_length),
            _ => (aligned, 32),
        }
    }

    fn add_burst_read(&mut self) {
        let (address, count) = self.burst();
        self.calls.push(Call::BurstRead { address, count });
    }

    fn add_burst_write(&mut self) {
        let (address, count) = self.burst();
        self.push_burst_write(address, count);
    }

    /// LIST-6: an accepted burst write writes all four doublewords of its line.
    fn push_burst_write(&mut self, address: u32, count: usize) {
        let bytes = self.rng.bytes(count);
        if address.is_multiple_of(8) && count == 32 {
            let first = doubleword(address & !31);
            for written in first..first + 4 {
                self.flipped.remove(&written);
            }
        }
        self.calls.push(Call::BurstWrite { address, bytes });
    }

    /// A flip; one that would break the condition gets a scrub or a write of
    /// some kind before it.
    fn add_flip(&mut self) {
        let address = self.address();
        let bit = if self.rng.percent(5) {
            72 + self.rng.below(184) as u8
        } else {
            self.rng.below(72) as u8
        };
        let accepted = bit <= 71 && self.flat.selects_bank(address);
        if accepted {
            if self.flipped.contains(&doubleword(address)) {
                self.add_mend(address);
            }
            self.flipped.insert(doubleword(address));
        }
        self.calls.push(Call::Flip { address, bit });
    }

    /// A split reaches the doubleword, which has a bank, from either side; there
    /// is none before doubleword 0.
    fn add_mend(&mut self, address: u32) {
        match self.rng.below(6) {
            0 | 1 => self.calls.push(Call::Scrub { address }),
            2 | 3 => self.push_write(address, 1),
            4 => {
                let lower = (address & !7).saturating_sub(self.rng.pick(&[0, 8]));
                let (address, count) = edges::split(self.rng, lower);
                self.push_write(address, count);
            }
            _ => {
                let start = self.line_start(address);
                self.push_burst_write(start, 32);
            }
        }
    }

    /// LIST-1: register reads and writes from B8 to CB, also refused ones.
    fn add_register_call(&mut self) {
        let offset = 0xB8 + self.rng.below(20) as u8;
        self.calls.push(if self.rng.percent(30) {
            Call::ReadRegister { offset }
        } else {
            let value = self.rng.byte();
            Call::WriteRegister { offset, value }
        });
    }
}
