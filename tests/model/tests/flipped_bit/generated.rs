//! Random scripts: the form of each printed line, and the bits that it names.

use std::collections::{HashMap, HashSet};

use model::gen::{scripts, Rng};
use model::lines::LineProgram;
use model::map::map;
use model::Answer::{self, Clean, Corrected, NoBank, Stored, Uncorrectable};
use model::Record;

use crate::rules::{meaning, COLUMNS};

/// An accepted r, w or s line.
struct Line<'a> {
    letter: &'a str,
    /// The addresses of its accesses (MEM-17).
    accesses: Vec<u32>,
    /// How many bytes it reads or writes; a scrub none.
    count: usize,
}

fn address_of(field: &str) -> u32 {
    u32::from_str_radix(field, 16).unwrap()
}

fn memory_line(line: &str) -> Option<Line<'_>> {
    let fields: Vec<&str> = line.split(',').collect();
    let count = match fields[0] {
        "r" => fields[2].parse().unwrap(),
        "w" => fields[2].len() / 2,
        "s" => 0,
        _ => return None,
    };
    let address = address_of(fields[1]);
    let mut accesses = vec![address];
    if address as usize % 8 + count > 8 {
        accesses.push((address | 7) + 1);
    }
    Some(Line {
        letter: fields[0],
        accesses,
        count,
    })
}

/// What is printed of an answer.
fn printed(answer: &Answer) -> String {
    match answer {
        Clean => "n".into(),
        Corrected(bit) => format!("c,{bit}"),
        Uncorrectable => "u".into(),
        NoBank => "e".into(),
        Stored => "p".into(),
    }
}

/// The wrong bits of each cell. Answers depend on nothing else in it, however
/// many flips it took.
#[derive(Default)]
struct WrongBits(HashMap<u32, HashSet<u8>>);

impl WrongBits {
    fn flip(&mut self, cell: u32, bit: u8) {
        let bits = self.0.entry(cell).or_default();
        if !bits.remove(&bit) {
            bits.insert(bit);
        }
    }

    /// ECC-5, ECC-6: a syndrome is the exclusive-or of the columns that are
    /// wrong.
    fn answer(&self, cell: u32) -> Answer {
        let bits = self.0.get(&cell).into_iter().flatten();
        meaning(bits.fold(0, |s, &bit| s ^ COLUMNS[usize::from(bit)]))
    }

    /// True if an answer names a bit that is not wrong.
    fn is_miscorrection(&self, cell: u32, answer: Answer) -> bool {
        let wrong = self.0.get(&cell);
        matches!(answer, Corrected(bit) if !wrong.is_some_and(|bits| bits.contains(&bit)))
    }
}

/// A script in its run, and what its lines have met.
#[derive(Default)]
struct Follower {
    wrong: WrongBits,
    miscorrections: usize,
    /// Letter, number of accesses, which of them, and its bit.
    seen: HashSet<(String, usize, usize, u8)>,
    longest: usize,
}

impl Follower {
    /// One access: its answer, and that writes and scrubs leave a right cell
    /// unless it is lost.
    fn access(&mut self, record: &Record, line: &Line, address: u32) -> Answer {
        let Some(place) = map(record, address).unwrap() else {
            return NoBank;
        };
        if line.letter == "w" && line.count == 8 && line.accesses.len() == 1 {
            self.wrong.0.remove(&place.cell);
            return Stored;
        }
        let answer = self.wrong.answer(place.cell);
        self.miscorrections += usize::from(self.wrong.is_miscorrection(place.cell, answer));
        if line.letter != "r" && answer != Uncorrectable {
            self.wrong.0.remove(&place.cell);
        }
        answer
    }

    /// An accepted line: what it must have printed after the 0.
    fn accepted(&mut self, record: &Record, text: &str) -> Option<String> {
        if let Some(("f", rest)) = text.split_once(',') {
            let (address, bit) = rest.split_once(',').unwrap();
            let place = map(record, address_of(address)).unwrap().unwrap();
            self.wrong.flip(place.cell, bit.parse().unwrap());
            return Some(String::new());
        }
        let line = memory_line(text)?;
        let mut fields = String::new();
        for (n, &address) in line.accesses.iter().enumerate() {
            let answer = self.access(record, &line, address);
            fields += &format!(",{}", printed(&answer));
            if let Corrected(bit) = answer {
                let sort = (line.letter.into(), line.accesses.len(), n, bit);
                self.seen.insert(sort);
            }
        }
        Some(fields)
    }

    /// Compares a line with what it printed; of bytes only their number.
    fn line(&mut self, record: &Record, text: &str, out: &str) {
        self.longest = self.longest.max(out.len());
        let Some(rest) = out[1..].strip_prefix(",0") else {
            return;
        };
        let Some(expected) = self.accepted(record, text) else {
            return;
        };
        let behind = rest.strip_prefix(expected.as_str());
        let bytes = match memory_line(text) {
            Some(line) if line.letter == "r" => 1 + 2 * line.count,
            _ => 0,
        };
        assert_eq!(behind.map(str::len), Some(bytes), "{text}: {out}");
    }
}

/// Every answer that random scripts print is the one that follows from the
/// flips, and they name each bit in each sort of access.
#[test]
fn random_scripts_name_every_bit() {
    let mut follower = Follower::default();
    for seed in 0..6 {
        let mut program = LineProgram::new();
        follower.wrong = WrongBits::default();
        for line in scripts::script(&mut Rng::new(seed), 60_000) {
            let mut out = Vec::new();
            program.take_line(&line, &mut out);
            let out = String::from_utf8(out).unwrap();
            let text = String::from_utf8_lossy(&line);
            follower.line(program.record(), &text, out.trim_end());
        }
    }
    // Reads, short writes and scrubs, and both accesses of split reads and of
    // split writes.
    assert_eq!(follower.seen.len(), 72 * (3 + 2 + 2));
    assert!(follower.miscorrections > 100, "{}", follower.miscorrections);
    // A split read of eight bytes with two bits of two digits.
    assert_eq!(follower.longest, "r,0,c,10,c,71,0011223344556677".len());
}
