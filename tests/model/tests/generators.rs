//! The generators produce the cases that they are meant to produce.

use std::collections::HashSet;

use model::calls::{Call, Outcome};
use model::flat::FlatMachine;
use model::gen::{lists, scripts, setups, Rng};
use model::map::{judge, Layout};
use model::{Answer, Answers};

#[test]
fn accepted_set_ups_are_mixed() {
    let mut ends = HashSet::new();
    let mut numbers = HashSet::new();
    let mut shapes = HashSet::new();
    for seed in 0..2000 {
        let layout = judge(&setups::accepted(&mut Rng::new(seed), u32::MAX)).unwrap();
        numbers.insert(layout.enabled().count());
        for (_, bank) in layout.enabled() {
            ends.insert(bank.last_mb);
            shapes.insert((bank.row_bits, bank.column_bits));
        }
    }
    assert!([0, 255, 256, 1023].iter().all(|end| ends.contains(end)));
    assert_eq!(numbers.len(), 8);
    // By row code; the last has two numbers of row bits.
    assert_eq!(shapes.len(), 2 + 3 + 4 + (5 + 1));
}

#[test]
fn refused_set_ups_meet_every_cause_at_many_banks() {
    let mut refusals = HashSet::new();
    for seed in 0..5000 {
        let mut draft = setups::refused_draft(&mut Rng::new(seed));
        let before = draft;
        let refusal = draft.write_register(0xF2, 8).unwrap_err();
        assert_eq!(draft, before);
        refusals.insert((refusal.number(), refusal.bank()));
    }
    // 11 alone; 12 and 13 at each of eight banks; 14 at each but bank 0.
    assert_eq!(refusals.len(), 1 + 8 + 8 + 7, "{refusals:?}");
}

#[test]
fn one_seed_gives_one_script() {
    let script = |seed| scripts::script(&mut Rng::new(seed), 3000);
    assert_eq!(script(11), script(11));
    assert_ne!(script(11), script(12));
    assert!(script(11).iter().all(|line| !line.contains(&b'\n')));
}

/// Where the line of an accepted burst lies.
fn line_kinds(layout: &Layout, line: u32) -> Vec<String> {
    let mut kinds = Vec::new();
    for (_, bank) in layout.enabled() {
        if line == bank.start_mb << 20 {
            kinds.push("first of a span");
        }
        if line + 31 == (bank.last_mb << 20) + 0xF_FFFF {
            kinds.push("last of a span");
        }
    }
    if layout.locate(line).is_none() {
        kinds.push("no bank");
    }
    match line {
        0xFFFF_FFE0 => kinds.push("last of all"),
        0xFFFF_FFC0 => kinds.push("last but one"),
        0 => kinds.push("first of all"),
        _ => {}
    }
    kinds.into_iter().map(String::from).collect()
}

/// How many marks stand in the line of an accepted burst. The machine is not
/// changed by the look at it.
fn marks_met(flat: &mut FlatMachine, address: u32) -> usize {
    match flat.step(&Call::BurstRead { address, count: 32 }) {
        Some(Outcome::BurstRead(answers, _)) => answers
            .iter()
            .filter(|answer| matches!(answer, Answer::Corrected(_)))
            .count(),
        other => panic!("an accepted burst: {other:?}"),
    }
}

/// Of a burst: whether it is a write, its address and its length.
fn burst(call: &Call) -> Option<(bool, u32, usize)> {
    match call {
        Call::BurstRead { address, count } => Some((false, *address, *count)),
        Call::BurstWrite { address, bytes } => Some((true, *address, bytes.len())),
        _ => None,
    }
}

/// What a burst shows: its faults, or where it starts and what it meets.
fn burst_kinds(layout: &Layout, flat: &mut FlatMachine, address: u32, count: usize) -> Vec<String> {
    let faults = (!address.is_multiple_of(8), count != 32);
    let mut kinds = vec![format!("faults {faults:?}")];
    if faults == (false, false) {
        kinds.push(format!("start {}", address % 32));
        kinds.push(format!("marks {}", marks_met(flat, address)));
        kinds.extend(line_kinds(layout, address & !31));
    }
    kinds
}

#[test]
fn lists_have_bursts_of_all_sorts() {
    let mut seen = HashSet::new();
    for seed in 0..40 {
        let rng = &mut Rng::new(seed);
        let record = setups::accepted(rng, u32::MAX);
        let layout = judge(&record).unwrap();
        let mut flat = FlatMachine::of_record(&record).unwrap();
        for call in lists::list(rng, &record, 1500) {
            if let Some((is_write, address, count)) = burst(&call) {
                let kinds = burst_kinds(&layout, &mut flat, address, count);
                seen.extend(kinds.into_iter().map(|kind| (is_write, kind)));
            }
            flat.step(&call);
        }
    }
    // Reads and writes: faults, starts, marks from none to four, lines.
    assert_eq!(seen.len(), 2 * (4 + 4 + 5 + 6), "{seen:?}");
}

/// Of a read or write: whether it is a write, its address and its count.
fn read_or_write(call: &Call) -> Option<(bool, u32, usize)> {
    match call {
        Call::Read { address, count } => Some((false, *address, *count)),
        Call::Write { address, bytes } => Some((true, *address, bytes.len())),
        _ => None,
    }
}

/// What lies on both sides of the end of a doubleword.
fn edge_kind(layout: &Layout, lower: u32) -> &'static str {
    let Some(upper) = lower.checked_add(8) else {
        return "past the last address";
    };
    match (layout.locate(lower), layout.locate(upper)) {
        (None, None) if upper == 0xFFFF_FFF8 => "into the last doubleword",
        (None, None) => "outside of banks",
        (None, Some(_)) => "into a bank",
        (Some(_), None) => "out of a bank",
        (Some(one), Some(other)) if one.bank != other.bank => "into another bank",
        (Some(one), Some(other)) if one.cell > other.cell => "the first cell again",
        _ if upper.is_multiple_of(1 << 20) => "into the next megabyte",
        _ => "inside a megabyte",
    }
}

/// Whether a mark stands at a doubleword. The machine is not changed.
fn is_marked(flat: &mut FlatMachine, address: u32) -> bool {
    let read = flat.step(&Call::Read { address, count: 8 });
    matches!(
        read,
        Some(Outcome::Read(Answers::Single(Answer::Corrected(_)), _))
    )
}

/// What a split shows: its edge, its start and count, and the marks it meets. Of
/// what is no split only the end of the address space is of interest.
fn split_kinds(layout: &Layout, flat: &mut FlatMachine, address: u32, count: usize) -> Vec<String> {
    let start = address as usize % 8;
    let lower = address & !7;
    match (count, start + count) {
        (1..=8, 9..) => {
            let marks = [lower, lower.wrapping_add(8)].map(|address| is_marked(flat, address));
            vec![
                edge_kind(layout, lower).into(),
                format!("start {start}, count {count}"),
                format!("marks {marks:?}"),
            ]
        }
        (1..=8, 8) if lower == 0xFFFF_FFF8 => vec!["up to the last address".into()],
        (9.., _) if lower == 0xFFFF_FFF8 => vec!["bad count at the last address".into()],
        _ => vec![],
    }
}

#[test]
fn lists_have_splits_of_all_sorts() {
    let mut seen = HashSet::new();
    for seed in 0..40 {
        let rng = &mut Rng::new(seed);
        let record = setups::accepted(rng, u32::MAX);
        let layout = judge(&record).unwrap();
        let mut flat = FlatMachine::of_record(&record).unwrap();
        for call in lists::list(rng, &record, 1500) {
            if let Some((is_write, address, count)) = read_or_write(&call) {
                let kinds = split_kinds(&layout, &mut flat, address, count);
                seen.extend(kinds.into_iter().map(|kind| (is_write, kind)));
            }
            flat.step(&call);
        }
    }
    // Reads and writes: edges, starts with counts, marks, the last address.
    assert_eq!(seen.len(), 2 * (9 + 28 + 4 + 2), "{seen:?}");
}
