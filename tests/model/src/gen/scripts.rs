//! Random line scripts: accepted, refused and malformed lines, with many
//! interesting cases.

mod memory;
mod refused;
mod registers;

use super::{edges, setups, Rng};
use crate::lines::LENT_CELLS;
use crate::map::{self, Bank, Column, Layout, Row};
use crate::record::Record;

/// Values of w that a script comes back to, over all its set-ups.
const HOT_NUMBERS: usize = 15;

/// How often a set-up is drawn again because no address has a lent cell.
const REDRAWS: u32 = 30;

/// A script of exactly that many lines, without their LFs.
pub fn script(rng: &mut Rng, lines: usize) -> Vec<Vec<u8>> {
    let mut script = ScriptMaker::new(rng);
    script.set_up();
    while script.lines.len() < lines {
        script.block();
    }
    script.lines.truncate(lines);
    script.lines
}

/// The script as input, each line ended by LF.
pub fn as_input(lines: &[Vec<u8>]) -> Vec<u8> {
    let mut input = Vec::new();
    for line in lines {
        input.extend_from_slice(line);
        input.push(b'\n');
    }
    input
}

struct ScriptMaker<'a> {
    rng: &'a mut Rng,
    lines: Vec<Vec<u8>>,
    /// Values of w below the number of lent cells, or just above.
    hot_numbers: Vec<u32>,
    /// The doublewords that have them in the present set-up.
    hot: Vec<u32>,
    /// The set-up last written, whether or not it was accepted.
    layout: Option<Layout>,
}

impl<'a> ScriptMaker<'a> {
    fn new(rng: &'a mut Rng) -> Self {
        let lent = LENT_CELLS as u32;
        let mut hot_numbers = vec![0, 1, lent - 2, lent - 1, lent];
        // Two neighbours each, so that a split meets both.
        while hot_numbers.len() < HOT_NUMBERS {
            let number = rng.below(lent);
            hot_numbers.extend([number, number + 1]);
        }
        ScriptMaker {
            rng,
            lines: Vec::new(),
            hot_numbers,
            hot: Vec::new(),
            layout: None,
        }
    }

    fn line(&mut self, line: String) {
        self.lines.push(line.into_bytes());
    }

    fn block(&mut self) {
        match self.rng.below(1000) {
            0..=5 => self.set_up(),
            6..=13 => self.refused_set_up(),
            14..=21 => self.switch_off_and_on(),
            22..=359 => self.memory_line(),
            360..=419 => self.split_over_flips(),
            420..=549 => self.flip_and_look(),
            550..=599 => self.flip_twice_and_look(),
            600..=649 => self.trigger(),
            650..=749 => self.error_register_line(),
            750..=799 => self.look_at_error_registers(),
            800..=849 => self.any_register_line(),
            850..=919 => self.refused_line(),
            _ => self.malformed_line(),
        }
    }

    // Set-ups.

    /// Switches off, writes a set-up that is accepted, and switches on. Only
    /// the lowest enabled bank can have lent cells, every bank having at least
    /// 2^17; a set-up in which these cells have no address is rare.
    fn set_up(&mut self) {
        let mut draft = setups::accepted_draft(self.rng, u32::MAX);
        for _ in 0..REDRAWS {
            self.find_hot(&draft);
            if !self.hot.is_empty() {
                break;
            }
            draft = setups::accepted_draft(self.rng, u32::MAX);
        }
        self.find_hot(&draft);
        self.write_set_up(&draft);
        self.line("c,f2,08".into());
    }

    /// A set-up that is refused; memory then stays off for some lines.
    fn refused_set_up(&mut self) {
        let draft = setups::refused_draft(self.rng);
        self.write_set_up(&draft);
        self.line("c,f2,08".into());
        for _ in 0..1 + self.rng.below(6) {
            self.memory_line();
        }
        self.set_up();
    }

    fn write_set_up(&mut self, draft: &Record) {
        self.line("c,f2,00".into());
        for (offset, value) in setups::writes_of(draft) {
            self.line(format!("c,{offset:02x},{value:02x}"));
        }
    }

    fn switch_off_and_on(&mut self) {
        self.line("c,f2,00".into());
        for _ in 0..self.rng.below(4) {
            self.memory_line();
        }
        self.line("c,f2,08".into());
        if self.rng.percent(30) {
            self.line("c,f2,08".into());
        }
    }

    fn find_hot(&mut self, draft: &Record) {
        self.layout = map::judge(draft).ok();
        self.hot.clear();
        let lowest = self.layout.and_then(|layout| {
            let lowest = layout.enabled().next();
            lowest.map(|(n, bank)| (n, *bank))
        });
        if let Some((n, bank)) = lowest {
            for &w in &self.hot_numbers {
                self.hot.extend(address_of(draft, n, &bank, w));
            }
        }
    }

    // Addresses and arguments.

    fn hot_doubleword(&mut self) -> u32 {
        if self.hot.is_empty() {
            self.rng.below(LENT_CELLS as u32) * 8
        } else {
            self.rng.pick(&self.hot)
        }
    }

    fn address(&mut self) -> u32 {
        match (self.rng.below(20), self.layout) {
            (0, Some(layout)) => setups::address(self.rng, &layout),
            (1, _) => self.rng.next_u64() as u32 | self.rng.pick(&[0, 0xFFFF_FFF0]),
            (2, _) => self.rng.below(LENT_CELLS as u32 + 1000) * 8,
            _ => self.hot_doubleword() + self.rng.below(8),
        }
    }

    /// The lower doubleword of a split: mostly one with a lent cell. Before cell
    /// 0 there is no bank, a cell that is not lent, or no address.
    fn split_doubleword(&mut self) -> u32 {
        let first = self.hot.first().copied().unwrap_or_default();
        match (self.rng.below(10), self.layout) {
            (0 | 1, Some(layout)) => edges::edge(self.rng, &layout),
            (2, _) => first.wrapping_sub(8),
            _ => self.hot_doubleword(),
        }
    }
}

/// The address of the doubleword with number w in a bank, if it has one.
fn address_of(draft: &Record, n: u8, bank: &Bank, w: u32) -> Option<u32> {
    let mut on = *draft;
    on.set(0xF2, 8);
    let row = Row(w >> bank.column_bits);
    let column = Column(w % (1 << bank.column_bits));
    map::way_back(&on, n, row, column).ok()
}

fn hex(bytes: &[u8]) -> String {
    bytes.iter().map(|byte| format!("{byte:02x}")).collect()
}
