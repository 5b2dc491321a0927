//! Register lines of a script.

use super::ScriptMaker;

impl ScriptMaker<'_> {
    /// Sets counter and trigger close together, often near 255.
    pub(super) fn set_trigger(&mut self) {
        let counter = match self.rng.below(3) {
            0 => self.rng.pick(&[0, 1, 253, 254, 255]),
            _ => self.rng.byte(),
        };
        let trigger = counter.wrapping_add(self.rng.below(3) as u8);
        let enables = self.rng.pick(&[0x04, 0x24, 0xFF, 0x00, 0xFB]);
        self.line(format!("c,b8,{counter:02x}"));
        self.line(format!("c,b9,{trigger:02x}"));
        self.line(format!("c,c0,{enables:02x}"));
        if self.rng.percent(70) {
            self.clear_detections();
        }
    }

    fn clear_detections(&mut self) {
        self.line("c,c1,ff".into());
        self.line("c,c5,ff".into());
    }

    pub(super) fn error_register_line(&mut self) {
        let value = match self.rng.below(3) {
            0 => self.rng.pick(&[0x00, 0x04, 0x08, 0x20, 0x24, 0xFE, 0xFF]),
            _ => self.rng.byte(),
        };
        let offset = self.rng.pick(&[0xB8, 0xB9, 0xC0, 0xC4, 0xC1, 0xC5]);
        match self.rng.below(4) {
            0 => self.clear_detections(),
            1 => {
                self.line("c,c0,24".into());
                self.line("c,c4,08".into());
            }
            _ => self.line(format!("c,{offset:02x},{value:02x}")),
        }
    }

    pub(super) fn look_at_error_registers(&mut self) {
        for offset in ["b8", "c1", "c5", "c8", "c9", "ca", "cb"] {
            self.line(format!("g,{offset}"));
        }
    }

    /// A read or write anywhere; most writes are refused while memory is on.
    /// A write of F2 is left to the set-ups.
    pub(super) fn any_register_line(&mut self) {
        let offset = match self.rng.below(3) {
            0 => self.rng.byte(),
            1 => 0x80 + self.rng.below(0x22) as u8,
            _ => self
                .rng
                .pick(&[0xA0, 0xB8, 0xB9, 0xC0, 0xC4, 0xC8, 0xF0, 0xF1]),
        };
        let value = self.rng.byte();
        if self.rng.percent(50) || offset == 0xF2 {
            self.line(format!("g,{offset:02x}"));
        } else {
            self.line(format!("c,{offset:02x},{value:02x}"));
        }
    }
}
