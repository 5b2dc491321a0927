//! Answers: from the library's numbers to enums.

/// The most parts that an answer has.
const PARTS: usize = 4;

/// The highest flip bit: the last check bit of a cell.
const LAST_BIT: u8 = 71;

/// What happened at one part of an accepted read, write, scrub or burst.
#[derive(Clone, Copy, Debug, PartialEq, Eq, Hash)]
pub enum Kind {
    /// Nothing was wrong.
    Clean,
    /// One bit was wrong and was corrected: this one, numbered as [`Record::flip`](crate::Record::flip) numbers bits. So
    /// 0 to 63 are data bits of the whole doubleword, whichever of its bytes were asked for, and 64 to 71 check bits. It
    /// is the bit that the check byte names: if three or more were wrong, that can be one that was right.
    Corrected(u8),
    /// More bits were wrong than can be corrected.
    Uncorrectable,
    /// A write of 8 bytes that fill one doubleword, or a beat of a burst write; neither looks at the old cell.
    Stored,
    /// No enabled bank holds the address.
    NoBank,
    /// What no version up to this one gives, so that another library was linked: the number that stands for a part, or a
    /// count of parts that is not 1 to 4. Nothing is promised of such a call, not that it left anything as it was.
    Unknown(u32),
}

impl Kind {
    /// The higher, the worse.
    fn badness(self) -> u8 {
        match self {
            Kind::Clean | Kind::Stored => 1,
            Kind::Corrected(_) => 2,
            Kind::NoBank => 3,
            Kind::Uncorrectable => 4,
            Kind::Unknown(_) => 5,
        }
    }
}

/// One part of an answer: what one doubleword gave.
#[derive(Clone, Copy, Debug, PartialEq, Eq, Hash)]
#[non_exhaustive]
pub struct Part {
    /// What happened there.
    pub kind: Kind,
}

/// What an accepted read, write, scrub or burst gives. A burst has four parts, one for each beat; a read or write that
/// runs into the next doubleword, a split, has two, that of the lower address first; any other answer has one.
#[derive(Clone, Copy, Debug, PartialEq, Eq, Hash)]
pub struct Answer {
    count: usize,
    parts: [Part; PARTS],
}

impl Answer {
    /// The parts, at least one, in the order in which they were performed.
    pub fn parts(&self) -> &[Part] {
        &self.parts[..self.count]
    }

    /// The worst kind of all parts, so that none of a split or a burst goes unnoticed; of several that are as bad, the
    /// first. From the best on: [`Kind::Clean`] and [`Kind::Stored`], which one answer never has both;
    /// [`Kind::Corrected`], since the bytes are right; [`Kind::NoBank`], since nothing that was stored is lost, and
    /// firmware that looks for the end of memory expects it; [`Kind::Uncorrectable`], since bytes are lost; and
    /// [`Kind::Unknown`].
    pub fn worst_kind(&self) -> Kind {
        let worse = |a: Kind, b: Kind| if b.badness() > a.badness() { b } else { a };
        self.kinds().fold(self.parts[0].kind, worse)
    }

    /// The kind of each part, in the order in which they were performed: four for a burst, two for a split.
    pub fn kinds(&self) -> impl Iterator<Item = Kind> + '_ {
        self.parts().iter().map(|part| part.kind)
    }
}

/// A part has its kind in the low byte and, if it was corrected, its flip bit in the next. What stands above is left to
/// later versions.
fn part(number: u32) -> Part {
    let [kind, bit, ..] = number.to_le_bytes();
    let kind = match (kind, bit) {
        (1, 0) => Kind::Clean,
        (2, 0..=LAST_BIT) => Kind::Corrected(bit),
        (3, 0) => Kind::Uncorrectable,
        (4, 0) => Kind::Stored,
        (5, 0) => Kind::NoBank,
        _ => Kind::Unknown(number),
    };
    Part { kind }
}

/// The answer in the numbers that an accepted call gave: the count, then four parts.
pub(crate) fn answer([given, numbers @ ..]: [u32; PARTS + 1]) -> Answer {
    let count = given as usize;
    if count == 0 || count > PARTS {
        let kind = Kind::Unknown(given);
        let parts = [Part { kind }; PARTS];
        return Answer { count: 1, parts };
    }
    // The parts that are not used are all alike, so that equal answers compare as equal.
    let mut parts = [part(numbers[0]); PARTS];
    for (place, number) in parts.iter_mut().zip(numbers).take(count) {
        *place = part(number);
    }
    Answer { count, parts }
}

#[cfg(test)]
mod tests {
    use super::*;

    #[test]
    fn each_part_has_its_kind() {
        let given = answer([4, 1, 2, 3, 4]);
        let kinds = [
            Kind::Clean,
            Kind::Corrected(0),
            Kind::Uncorrectable,
            Kind::Stored,
        ];
        assert!(given.kinds().eq(kinds));
        assert_eq!(given.parts().len(), 4);
        let split = answer([2, 3, 1, 0, 0]);
        assert!(split.kinds().eq([Kind::Uncorrectable, Kind::Clean]));
        assert_eq!(split.parts().len(), 2);
        assert!(answer([1, 5, 0, 0, 0]).kinds().eq([Kind::NoBank]));
    }

    #[test]
    fn a_corrected_part_has_its_bit() {
        for bit in 0..=71 {
            let given = answer([1, u32::from(bit) << 8 | 2, 0, 0, 0]);
            assert!(given.kinds().eq([Kind::Corrected(bit)]));
        }
        let given = answer([4, 0x4702, 0x0902, 1, 0x4002]);
        let kinds = [
            Kind::Corrected(71),
            Kind::Corrected(9),
            Kind::Clean,
            Kind::Corrected(64),
        ];
        assert!(given.kinds().eq(kinds));
    }

    #[test]
    fn answers_that_are_never_given_are_told_apart() {
        // No kind, or one too many; bit 72; a bit of a part that was not corrected.
        for number in [0, 6, 0x4802, 0x0501, 0x0503, 0x0504, 0x0505] {
            let unknown = Kind::Unknown(number);
            assert!(answer([1, number, 0, 0, 0]).kinds().eq([unknown]));
            assert!(answer([2, 1, number, 0, 0])
                .kinds()
                .eq([Kind::Clean, unknown]));
            assert_eq!(answer([2, 3, number, 0, 0]).worst_kind(), unknown);
        }
        for count in [0, 5, u32::MAX] {
            let given = answer([count, 1, 1, 1, 1]);
            assert!(given.kinds().eq([Kind::Unknown(count)]));
            assert_eq!(given.worst_kind(), Kind::Unknown(count));
        }
    }

    #[test]
    fn what_later_versions_put_above_is_passed_over() {
        let given = answer([2, 0x00ff_4702, 0x0100_0001, 0, 0]);
        assert!(given.kinds().eq([Kind::Corrected(71), Kind::Clean]));
    }

    /// The order as it is documented, asked for kind by kind.
    fn expected_worst(kinds: &[Kind]) -> Kind {
        let find = |test: fn(&&Kind) -> bool| kinds.iter().find(test);
        *find(|kind| matches!(kind, Kind::Uncorrectable))
            .or_else(|| find(|kind| matches!(kind, Kind::NoBank)))
            .or_else(|| find(|kind| matches!(kind, Kind::Corrected(_))))
            .unwrap_or(&kinds[0])
    }

    #[test]
    fn the_worst_kind_is_that_of_all_parts() {
        let numbers = [1, 0x0902, 0x0a02, 3, 4, 5];
        let kinds = numbers.map(|number| part(number).kind);
        for choice in 0..6usize.pow(4) {
            let places = [choice % 6, choice / 6 % 6, choice / 36 % 6, choice / 216];
            let [a, b, c, d] = places.map(|place| numbers[place]);
            for count in 1..=PARTS {
                let given = answer([count as u32, a, b, c, d]);
                let held = places.map(|place| kinds[place]);
                assert_eq!(given.worst_kind(), expected_worst(&held[..count]));
            }
        }
    }
}
