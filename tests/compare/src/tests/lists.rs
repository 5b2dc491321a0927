//! DEM-3: lists that meet the condition (LIST-6). The library's answers against
//! the flat machine, which has no cells.

use model::code::CELL_BYTES;
use model::flat::FlatMachine;
use model::gen::{lists, setups, Rng};
use model::map::{self, Layout};
use model::record::{offset, SWITCH_ON};
use model::{Call, Outcome, Record};

use crate::answers::{self, ACCEPTED};
use crate::coverage::Coverage;
use crate::draw;
use crate::library;
use crate::request::{nonzero, Given, Request, State};
use crate::shrink::{self, Budget};
use crate::tests::splits;
use crate::ways::{every_bit, every_bit_of_single_calls, met, met_bits, mixtures, ways, Met};

const LISTS: usize = 1_500;
const LISTS_IN_LONG_BANKS: usize = 200;
const CALLS: usize = 400;

/// Stands for a read, write or scrub in a bank with thirteen row bits.
const LONG_BANK: &str = "long bank";

/// All cells are lent; those never touched take no memory.
const MOST_CELLS: u32 = 1 << 24;

pub fn against_flat_machine(rng: &mut Rng) -> Result<String, String> {
    let mut coverage = Coverage::new();
    let draft = |rng: &mut Rng| setups::accepted_draft(rng, MOST_CELLS);
    check(rng, LISTS, draft, &mut coverage)?;
    coverage.check(wanted())?;
    Ok(format!("{LISTS} lists, {CALLS} calls each"))
}

/// The same in set-ups with banks of more than 128 MB (REG-13).
pub fn in_long_banks(rng: &mut Rng) -> Result<String, String> {
    let mut coverage = Coverage::new();
    let draft = |rng: &mut Rng| {
        let mut record = setups::long(rng);
        record.set(offset::SWITCH, 0);
        record
    };
    check(rng, LISTS_IN_LONG_BANKS, draft, &mut coverage)?;
    coverage.check(wanted_of_single_calls())?;
    coverage.check(ways(LONG_BANK, &[1, 2, 4], &[]))?;
    Ok(format!("{LISTS_IN_LONG_BANKS} lists, {CALLS} calls each"))
}

fn check(
    rng: &mut Rng,
    count: usize,
    draft: impl Fn(&mut Rng) -> Record,
    coverage: &mut Coverage<Met>,
) -> Result<(), String> {
    for _ in 0..count {
        let draft = draft(rng);
        let off = record_that_is_off(rng, draft);
        let on = switched_on(&off).map_err(|_| smallest_refused(&off))?;
        let calls = lists::list(rng, &on, CALLS);
        if !lists::keeps_condition(&on, &calls) {
            return Err("a list that breaks the condition (LIST-6) was drawn".to_string());
        }
        if difference(&off, &calls, coverage).is_some() {
            return Err(smallest(&off, &calls));
        }
    }
    Ok(())
}

/// LIST-2: any record that can be switched on, also a hand-made one, with any
/// error registers and any bits that don't count.
fn record_that_is_off(rng: &mut Rng, draft: Record) -> Record {
    let mut record = if rng.percent(60) {
        draw::harmless_change(rng, &draft)
    } else {
        draft
    };
    if rng.percent(60) {
        draw::scatter_error_registers(rng, &mut record);
    }
    if rng.percent(30) {
        record.set(offset::SWITCH, rng.byte() & !SWITCH_ON);
    }
    record
}

/// The library's own write of 8 to F2, or its answer if that is a refusal.
fn switched_on(off: &Record) -> Result<Record, u32> {
    let mut record = *off;
    match library::register_write(&mut record, offset::SWITCH.into(), SWITCH_ON) {
        0 => Ok(record),
        refused => Err(refused),
    }
}

/// For a record that the model accepts and the library does not.
fn smallest_refused(off: &Record) -> String {
    let mut small = *off;
    let bytes = shrink::zeroed(&Budget::new(), off.bytes.to_vec(), |bytes| {
        small.bytes.copy_from_slice(bytes);
        map::judge(&small).is_ok() && switched_on(&small).is_err()
    });
    small.bytes.copy_from_slice(&bytes);
    let way = switched_on(&small).err().unwrap_or(ACCEPTED);
    format!(
        "record {}, switching on: {} / accepted 0",
        nonzero(&bytes),
        answers::shown(way)
    )
}

/// Runs a list on both; the first call at which they differ, and how.
fn difference(
    off: &Record,
    calls: &[Call],
    coverage: &mut Coverage<Met>,
) -> Option<(usize, String)> {
    let on = switched_on(off).ok()?;
    let mut flat = FlatMachine::of_record(&on).ok()?;
    let layout = map::judge(&on).ok()?;
    let mut library = State::zeroed(on, CELL_BYTES * layout.cells() as usize);
    for (index, call) in calls.iter().enumerate() {
        let request = Request::Listed(call.clone());
        let from_library = library.ask_library(&request);
        let Some(outcome) = flat.step(call) else {
            // A register call: it must only leave the memory calls alone.
            continue;
        };
        let from_flat = from_flat(&request, outcome);
        coverage.meet(met(&request, from_flat.way(&request)));
        coverage.extend(met_bits(&request, &from_flat));
        if is_in_long_bank(&layout, call) {
            coverage.meet((LONG_BANK, from_flat.way(&request)));
        }
        if let Some(text) = Given::difference(&from_library, &from_flat) {
            return Some((index, text));
        }
    }
    None
}

/// The doubleword of the call's address is in a bank with thirteen row bits.
fn is_in_long_bank(layout: &Layout, call: &Call) -> bool {
    let (Call::Read { address, .. } | Call::Write { address, .. } | Call::Scrub { address }) = call
    else {
        return false;
    };
    let place = layout.locate(*address);
    let bank = place.and_then(|place| layout.banks[usize::from(place.bank)]);
    bank.is_some_and(|bank| bank.row_bits == 13)
}

/// LIST-8, LIST-9: what the library has to give for an outcome of the flat
/// machine.
fn from_flat(request: &Request, outcome: Outcome) -> Given {
    let of_parts = answers::numbers_of_parts;
    let mut given = Given::before(request);
    let (numbers, bytes) = match outcome {
        Outcome::Refused(refusal) => {
            given.result = answers::of_refusal(refusal);
            return given;
        }
        Outcome::Flipped => return given,
        Outcome::Answered(parts) => (of_parts(parts.kinds()), Vec::new()),
        Outcome::Read(parts, bytes) => (of_parts(parts.kinds()), bytes),
        Outcome::BurstWritten(beats) => (of_parts(&beats), Vec::new()),
        Outcome::BurstRead(beats, bytes) => (of_parts(&beats), bytes),
    };
    given.numbers = numbers;
    given.lent_buffer().copy_from_slice(&bytes);
    given
}

/// Fewer calls that still meet the condition, then a record with more zeros.
fn smallest(off: &Record, calls: &[Call]) -> String {
    let budget = Budget::new();
    let fails = |off: &Record, calls: &[Call]| {
        switched_on(off).is_ok_and(|on| lists::keeps_condition(&on, calls))
            && difference(off, calls, &mut Coverage::new()).is_some()
    };
    let calls = shrink::fewer(&budget, calls.to_vec(), |fewer| fails(off, fewer));
    let mut small = *off;
    let bytes = shrink::zeroed(&budget, off.bytes.to_vec(), |bytes| {
        small.bytes.copy_from_slice(bytes);
        map::judge(&small).is_ok() && fails(&small, &calls)
    });
    small.bytes.copy_from_slice(&bytes);
    let (index, text) = difference(&small, &calls, &mut Coverage::new()).unwrap_or((
        0,
        "no difference now: the calls are not repeatable".to_string(),
    ));
    let listed: Vec<String> = calls
        .iter()
        .map(|call| Request::Listed(call.clone()).to_string())
        .collect();
    format!(
        "record {} switched on, {} at call {index}: {text}",
        nonzero(&small.bytes),
        listed.join("; ")
    )
}

/// Under the condition nothing is uncorrectable, and every cell is lent. The bit
/// of a correction is the one that the mark remembers (FLAT-5), any of them at
/// any part.
fn wanted() -> impl Iterator<Item = Met> {
    wanted_of_single_calls()
        .chain(splits::of_both(|kind| mixtures(kind, 2, &[1, 2, 5])))
        .chain(splits::of_both(|kind| ways(kind, &[], &[7])))
        .chain(mixtures("burst read", 4, &[1, 2]))
        .chain(ways("burst read", &[0x5555], &[19, 20]))
        .chain(ways("burst write", &[0x4444, 0x5555], &[19, 20]))
        .chain(every_bit_of_single_calls())
        .chain(splits::of_both(|kind| every_bit(kind, 2)))
        .chain(every_bit("burst read", 4))
}

fn wanted_of_single_calls() -> impl Iterator<Item = Met> {
    ways("read", &[1, 2, 5], &[6])
        .chain(ways("write", &[1, 2, 4, 5], &[6]))
        .chain(ways("scrub", &[1, 2, 5], &[]))
        .chain(ways("flip", &[0], &[8, 10]))
}
