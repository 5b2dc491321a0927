//! FLAT-5: the mark of the flat machine remembers the bit of its flip.

use model::calls::{Call, Outcome};
use model::flat::{FlatMachine, Span};
use model::Answer::{self, Clean, Corrected, Stored};
use model::Answers::{Single, Split};
use model::Refusal;

use crate::{parts, split_counts};

/// The doubleword of the tests, the third of its line.
const ADDRESS: u32 = 0x30;

/// A flat machine whose only span is MB 0, after these flips.
fn flipped(flips: &[(u32, u8)]) -> FlatMachine {
    let mut flat = FlatMachine::new(vec![Span {
        start_mb: 0,
        last_mb: 0,
    }]);
    for &(address, bit) in flips {
        let outcome = flat.step(&Call::Flip { address, bit });
        assert_eq!(outcome, Some(Outcome::Flipped));
    }
    flat
}

/// The answers of a read of zeros.
fn read(flat: &mut FlatMachine, address: u32, count: usize) -> Vec<Answer> {
    match flat.step(&Call::Read { address, count }) {
        Some(Outcome::Read(answers, bytes)) if bytes == vec![0; count] => answers.kinds().to_vec(),
        other => panic!("a read of zeros: {other:?}"),
    }
}

/// The answer of a read of the doubleword.
fn look(flat: &mut FlatMachine) -> Answer {
    read(flat, ADDRESS, 8)[0]
}

fn write(flat: &mut FlatMachine, address: u32, count: usize) -> Option<Outcome> {
    let bytes = vec![0; count];
    flat.step(&Call::Write { address, bytes })
}

fn scrub(flat: &mut FlatMachine, address: u32) -> Option<Outcome> {
    flat.step(&Call::Scrub { address })
}

/// FLAT-3: any part of the doubleword, and the mark is left.
#[test]
fn reads_answer_with_the_bit_of_the_mark() {
    for bit in 0..72 {
        let mut flat = flipped(&[(ADDRESS + u32::from(bit % 8), bit)]);
        for part in parts() {
            let address = ADDRESS + part.start as u32;
            assert_eq!(read(&mut flat, address, part.len()), [Corrected(bit)]);
        }
        assert_eq!(read(&mut flat, ADDRESS - 8, 8), [Clean]);
        assert_eq!(read(&mut flat, ADDRESS + 8, 8), [Clean]);
    }
}

/// FLAT-2: a short write answers with the bit, a full one does not; both clear
/// the mark.
#[test]
fn writes_answer_with_the_bit_of_the_mark() {
    for bit in 0..72 {
        for part in parts() {
            let mut flat = flipped(&[(ADDRESS, bit)]);
            let address = ADDRESS + part.start as u32;
            let full = part.len() == 8;
            let expected = if full { Stored } else { Corrected(bit) };
            let outcome = write(&mut flat, address, part.len());
            assert_eq!(outcome, Some(Outcome::Answered(Single(expected))));
            assert_eq!(look(&mut flat), Clean);
        }
    }
}

/// FLAT-4
#[test]
fn scrubs_answer_with_the_bit_of_the_mark() {
    for bit in 0..72 {
        for address in ADDRESS..ADDRESS + 8 {
            let mut flat = flipped(&[(ADDRESS, bit)]);
            for expected in [Corrected(bit), Clean] {
                let outcome = scrub(&mut flat, address);
                assert_eq!(outcome, Some(Outcome::Answered(Single(expected))));
            }
        }
    }
}

/// FLAT-9: each access of a split answers by the mark of its own doubleword.
#[test]
fn splits_answer_with_the_bits_of_both_marks() {
    for bit in 0..72 {
        let other = 71 - bit;
        for (front, back) in split_counts() {
            let mut flat = flipped(&[(ADDRESS, bit), (ADDRESS + 8, other)]);
            let address = ADDRESS + 8 - front as u32;
            let expected = [Corrected(bit), Corrected(other)];
            assert_eq!(read(&mut flat, address, front + back), expected);
            let outcome = write(&mut flat, address, front + back);
            assert_eq!(outcome, Some(Outcome::Answered(Split(expected))));
            assert_eq!(read(&mut flat, address, front + back), [Clean; 2]);
        }
    }
}

/// FLAT-9: each beat answers by the mark of its own doubleword.
#[test]
fn bursts_answer_with_the_bits_of_their_marks() {
    for bit in 0..72 {
        let next = (bit + 1) % 72;
        let mut flat = flipped(&[(0x20, bit), (0x30, next), (0x38, 71 - bit)]);
        let answers = [Corrected(bit), Clean, Corrected(next), Corrected(71 - bit)];
        for first in 0..4 {
            let address = 0x20 + 8 * first as u32;
            let mut expected = answers;
            expected.rotate_left(first);
            let outcome = flat.step(&Call::BurstRead { address, count: 32 });
            let expected = Outcome::BurstRead(expected, vec![0; 32]);
            assert_eq!(outcome, Some(expected), "{address:02x}");
        }
        let (address, bytes) = (0x28, vec![0; 32]);
        let outcome = flat.step(&Call::BurstWrite { address, bytes });
        assert_eq!(outcome, Some(Outcome::BurstWritten([Stored; 4])));
        assert_eq!(look(&mut flat), Clean);
    }
}

/// FLAT-7: a refused flip, or another refused call, leaves the mark and its bit.
#[test]
fn refused_calls_leave_the_bit_of_the_mark() {
    let refused = |flat: &mut FlatMachine, call: Call, refusal| {
        assert_eq!(flat.step(&call), Some(Outcome::Refused(refusal)));
    };
    for bit in 0..72 {
        let mut flat = flipped(&[(ADDRESS, bit)]);
        for bit in [72, 73, 128, 255] {
            let address = ADDRESS;
            refused(&mut flat, Call::Flip { address, bit }, Refusal::BadFlipBit);
        }
        let elsewhere = Call::Flip {
            address: ADDRESS + (1 << 20),
            bit: 71 - bit,
        };
        refused(&mut flat, elsewhere, Refusal::FlipWithoutBank);
        let too_long = Call::Write {
            address: ADDRESS,
            bytes: vec![0; 9],
        };
        refused(&mut flat, too_long, Refusal::BadCount);
        assert_eq!(look(&mut flat), Corrected(bit));
    }
}

/// A flip of a marked doubleword leaves the mark with its own bit. LIST-6 keeps
/// such lists out of the comparison.
#[test]
fn a_later_flip_gives_the_mark_its_bit() {
    for bit in 0..72 {
        let last = (bit + 29) % 72;
        let mut flat = flipped(&[(ADDRESS, bit), (ADDRESS + 7, last)]);
        assert_eq!(look(&mut flat), Corrected(last));
        scrub(&mut flat, ADDRESS);
        assert_eq!(look(&mut flat), Clean);
        // The same bit twice: the flat machine has no cell that is right again.
        let mut flat = flipped(&[(ADDRESS, bit), (ADDRESS, bit)]);
        assert_eq!(look(&mut flat), Corrected(bit));
    }
}
