//! Refused and malformed lines of a script.

use super::{hex, ScriptMaker};
use crate::gen::edges;

impl ScriptMaker<'_> {
    pub(super) fn refused_line(&mut self) {
        let address = self.address();
        let number = 9 + self.rng.below(91);
        let byte = self.rng.byte();
        // REF-7: over the end of the last doubleword.
        let (passing, count) = edges::split(self.rng, 0xFFFF_FFF8);
        let line = match self.rng.below(10) {
            0 => format!("r,{address:08x},0"),
            1 => format!("r,{:08x},{number}", self.rng.pick(&[address, passing])),
            2 => format!("r,{passing:08x},{count}"),
            3 => format!("w,{passing:08x},{}", hex(&vec![byte; count])),
            4 => format!("f,{address:08x},{}", 72 + number % 28),
            5 => format!(
                "f,{:08x},{}",
                self.rng.next_u64() as u32 | 1 << 31,
                number % 72
            ),
            6 => format!("c,f2,{:02x}", byte | 1),
            7 => format!("c,c{:x},{byte:02x}", 8 + number % 4),
            8 => format!("c,{:02x},{:02x}", 0x88 | byte & 0x17, byte | 4),
            _ => format!("c,{:02x},{byte:02x}", byte & 0x7F),
        };
        self.line(line);
    }

    pub(super) fn malformed_line(&mut self) {
        let line = if self.rng.percent(50) {
            self.malformed_example()
        } else {
            self.mutated_line()
        };
        self.lines.push(line);
    }

    /// One of the known ways to be malformed.
    fn malformed_example(&mut self) -> Vec<u8> {
        let a = format!("{:08x}", self.address());
        let blanks = " ".repeat(self.rng.pick(&[28, 29, 30, 200, 5000]));
        let examples: [String; 28] = [
            String::new(),
            ",".into(),
            "c".into(),
            "c,b8".into(),
            "c,b8,".into(),
            "c,b8,1".into(),
            "c,b8,001".into(),
            "c,B8,01".into(),
            "c,b8,0A".into(),
            "c,b8,01,".into(),
            "g,b8,".into(),
            "g, b8".into(),
            "G,b8".into(),
            "g,b8\r".into(),
            "g,b8\0".into(),
            "h,b8".into(),
            format!("s,{a},"),
            format!("s,{a}0"),
            format!("s,{}", &a[1..]),
            format!("s,{}A", &a[1..]),
            format!("w,{a},"),
            format!("w,{a},123"),
            format!("w,{a},112233445566778899"),
            format!("w,{a},aB"),
            format!("r,{a},08"),
            format!("r,{a},100"),
            format!("f,{a},00"),
            format!("r,{a},1{blanks}"),
        ];
        examples[self.rng.below(28) as usize].clone().into_bytes()
    }

    /// An earlier line with one byte changed, taken out or put in; it may by
    /// chance be well-formed.
    fn mutated_line(&mut self) -> Vec<u8> {
        let earlier = self.rng.below(self.lines.len() as u32) as usize;
        let mut line = self.lines[earlier].clone();
        let byte = match self.rng.below(4) {
            0 => self.rng.byte(),
            1 => self.rng.pick(b",0189afAF"),
            _ => b' ' + self.rng.below(95) as u8,
        };
        let byte = if byte == b'\n' { b'\r' } else { byte };
        let at = self.rng.below(line.len() as u32 + 1) as usize;
        match self.rng.below(3) {
            0 if at < line.len() => line[at] = byte,
            1 if at < line.len() => drop(line.remove(at)),
            _ => line.insert(at, byte),
        }
        line
    }
}
