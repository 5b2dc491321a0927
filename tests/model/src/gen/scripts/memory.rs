//! Memory lines of a script.

use super::{hex, ScriptMaker};
use crate::gen::edges;

impl ScriptMaker<'_> {
    pub(super) fn memory_line(&mut self) {
        let address = self.address();
        match self.rng.below(13) {
            0 | 1 => self.full_write(address),
            2 | 3 => self.short_write(address),
            4..=6 => self.read(address),
            7 => self.flip(address),
            8 | 9 => self.line(format!("s,{address:08x}")),
            _ => {
                let lower = self.split_doubleword();
                self.split(lower);
            }
        }
    }

    fn full_write(&mut self, address: u32) {
        let bytes = hex(&self.rng.bytes(8));
        self.line(format!("w,{:08x},{bytes}", address & !7));
    }

    /// A write that stays in its doubleword.
    fn short_write(&mut self, address: u32) {
        let count = 1 + self.rng.below(8 - address % 8) as usize;
        let bytes = hex(&self.rng.bytes(count));
        self.line(format!("w,{address:08x},{bytes}"));
    }

    /// A read that stays in its doubleword.
    fn read(&mut self, address: u32) {
        let count = 1 + self.rng.below(8 - address % 8);
        self.line(format!("r,{address:08x},{count}"));
    }

    /// A read or write over the end of a doubleword.
    fn split(&mut self, lower: u32) {
        let (address, count) = edges::split(self.rng, lower);
        if self.rng.percent(50) {
            self.line(format!("r,{address:08x},{count}"));
        } else {
            let bytes = hex(&self.rng.bytes(count));
            self.line(format!("w,{address:08x},{bytes}"));
        }
    }

    fn flip(&mut self, address: u32) {
        let bit = self.rng.below(72);
        self.line(format!("f,{address:08x},{bit}"));
    }

    /// A read, short write, scrub or whole read of one doubleword, or a split
    /// over its end or its beginning.
    fn look(&mut self, doubleword: u32) {
        let address = doubleword + self.rng.below(8);
        match self.rng.below(6) {
            0 => self.read(address),
            1 => self.short_write(address),
            2 => self.line(format!("s,{address:08x}")),
            3 => self.line(format!("r,{doubleword:08x},8")),
            4 => self.split(doubleword),
            _ => self.split(doubleword.wrapping_sub(8)),
        }
    }

    pub(super) fn flip_and_look(&mut self) {
        let doubleword = self.hot_doubleword();
        let address = doubleword + self.rng.below(8);
        self.flip(address);
        for _ in 0..1 + self.rng.below(3) {
            self.look(doubleword);
        }
    }

    /// Uncorrectable unless both flips hit the same bit; mostly repaired
    /// afterwards.
    pub(super) fn flip_twice_and_look(&mut self) {
        let doubleword = self.hot_doubleword();
        self.flip(doubleword);
        self.flip(doubleword);
        for _ in 0..1 + self.rng.below(4) {
            self.look(doubleword);
        }
        if self.rng.percent(80) {
            self.full_write(doubleword);
            self.look(doubleword);
        }
    }

    /// Splits over two doublewords that have none, one or two flips each, often
    /// with a trigger that one access reaches. Mostly repaired afterwards.
    pub(super) fn split_over_flips(&mut self) {
        let lower = self.split_doubleword();
        for doubleword in [lower, lower.wrapping_add(8)] {
            for _ in 0..self.rng.below(3) {
                self.flip(doubleword);
            }
        }
        if self.rng.percent(50) {
            self.set_trigger();
        }
        for _ in 0..1 + self.rng.below(3) {
            self.split(lower);
        }
        self.look_at_error_registers();
        if self.rng.percent(80) {
            self.full_write(lower);
            self.full_write(lower.wrapping_add(8));
        }
    }

    /// Makes one or two corrections near the trigger and looks.
    pub(super) fn trigger(&mut self) {
        self.set_trigger();
        let doubleword = self.hot_doubleword();
        self.full_write(doubleword);
        for _ in 0..1 + self.rng.below(2) {
            self.flip(doubleword);
            self.look(doubleword);
            self.line(format!("s,{doubleword:08x}"));
        }
        self.look_at_error_registers();
    }
}
