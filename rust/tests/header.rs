//! The C header and this wrapper agree on the offsets, the lengths, and the refusals with their texts.
use mpc106::{offset, Refusal, CELL_BYTES, LINE_BYTES};

const HEADER: &str = include_str!("../../include/mpc106.h");

/// Each refusal with its name in C, by number.
const REFUSALS: [(Refusal, &str); 19] = [
    (Refusal::UnlistedOffset, "UNLISTED_OFFSET"),
    (Refusal::ReadOnly, "READ_ONLY"),
    (Refusal::ValueOutOfRange, "VALUE_OUT_OF_RANGE"),
    (Refusal::LockedWhileOn, "LOCKED_WHILE_ON"),
    (Refusal::NotReady, "NOT_READY"),
    (Refusal::CountOutOfRange, "COUNT_OUT_OF_RANGE"),
    (Refusal::PassesLastAddress, "PASSES_LAST_ADDRESS"),
    (Refusal::BitOutOfRange, "BIT_OUT_OF_RANGE"),
    (Refusal::NotLent, "NOT_LENT"),
    (Refusal::FlipWithoutBank, "FLIP_WITHOUT_BANK"),
    (Refusal::NoBankEnabled, "NO_BANK_ENABLED"),
    (Refusal::StartAboveEnd(0), "START_ABOVE_END"),
    (Refusal::TooLong(0), "TOO_LONG"),
    (Refusal::Overlap(0), "OVERLAP"),
    (Refusal::BankOff, "BANK_OFF"),
    (Refusal::RowOrColumnTooLarge, "ROW_OR_COLUMN_TOO_LARGE"),
    (Refusal::NoAddress, "NO_ADDRESS"),
    (Refusal::Misaligned, "MISALIGNED"),
    (Refusal::NotCacheLine, "NOT_CACHE_LINE"),
];

/// The offsets with their names in C.
const OFFSETS: [(u32, &str); 14] = [
    (offset::START, "START"),
    (offset::START_EXTENDED, "START_EXTENDED"),
    (offset::END, "END"),
    (offset::END_EXTENDED, "END_EXTENDED"),
    (offset::BANK_ENABLE, "BANK_ENABLE"),
    (offset::SINGLE_BIT_COUNTER, "SINGLE_BIT_COUNTER"),
    (offset::SINGLE_BIT_TRIGGER, "SINGLE_BIT_TRIGGER"),
    (offset::ERROR_ENABLE_1, "ERROR_ENABLE_1"),
    (offset::ERROR_DETECTION_1, "ERROR_DETECTION_1"),
    (offset::ERROR_ENABLE_2, "ERROR_ENABLE_2"),
    (offset::ERROR_DETECTION_2, "ERROR_DETECTION_2"),
    (offset::ERROR_ADDRESS, "ERROR_ADDRESS"),
    (offset::ROW_CODES, "ROW_CODES"),
    (offset::MEMORY, "MEMORY"),
];

fn says(text: &str) {
    assert!(HEADER.contains(text), "the header doesn't say: {text}");
}

#[test]
fn refusals_have_the_same_numbers() {
    // 18 is the line program's alone.
    let numbers = (1..=17).chain(19..=20);
    assert!(numbers.eq(REFUSALS.map(|(refusal, _)| refusal.number())));
    for (refusal, name) in REFUSALS {
        let number = refusal.number();
        assert!(
            HEADER.contains(&format!("MPC106_{name} = {number},"))
                || HEADER.contains(&format!("MPC106_{name} = {number} ")),
            "{name}"
        );
    }
}

#[test]
fn refusals_have_the_same_sentences() {
    for (refusal, name) in REFUSALS {
        let text = refusal.text();
        says(&format!("case MPC106_{name}: return \"{text}\";"));
        assert!(refusal.to_string().starts_with(text));
    }
}

#[test]
fn offsets_are_the_same() {
    for (offset, name) in OFFSETS {
        says(&format!("#define MPC106_{name} {offset:#x}u"));
    }
}

#[test]
fn lengths_are_the_same() {
    says(&format!("#define MPC106_CELL_BYTES {CELL_BYTES}\n"));
    says(&format!("#define MPC106_LINE_BYTES {LINE_BYTES}\n"));
}
