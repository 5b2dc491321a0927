//! MAP-7: the set-up with the most cells, all of them lent, and lent up to a
//! byte more or less than a call needs.

use model::code::CELL_BYTES;
use model::gen::Rng;
use model::map::{self, Layout};
use model::record::{offset, SWITCH_ON};
use model::{Call, Record};

use super::corners;
use crate::answers::ACCEPTED;
use crate::coverage::Coverage;
use crate::draw;
use crate::request::{Given, Request, State};
use crate::ways::{met, ways, Met};

/// Seven times 2^25 and one time 2^24.
const MOST_CELLS: u32 = 251_658_240;

/// Calls on both sides of every corner. Cells that no call touches take no
/// memory. All cells are compared once, when the calls are done.
pub fn every_cell_lent(rng: &mut Rng) -> Result<String, String> {
    let record = seven_long_banks();
    let layout = map::judge(&record).map_err(|refusal| format!("{refusal:?}"))?;
    let length = CELL_BYTES * layout.cells() as usize;
    let mut library = State::zeroed(record, length);
    let counted = library.ask_library(&Request::CellCount);
    if counted.way(&Request::CellCount) != ACCEPTED + MOST_CELLS {
        return Err(format!("{MOST_CELLS} cells, but {}", counted.shown()));
    }
    let mut model = State::zeroed(record, length);
    let mut coverage = Coverage::new();
    let calls = calls(rng, &layout);
    for call in &calls {
        same(&mut library, &mut model, call, &mut coverage)?;
    }
    if let Some(difference) = State::difference(&library, &model) {
        return Err(format!("after all calls: {difference}"));
    }
    coverage.check(wanted())?;
    let lent = just_lent(&record, &layout)?;
    Ok(format!("{} calls, {lent} lengths", calls.len()))
}

/// At the last MB a split has one part without a bank.
fn wanted() -> impl Iterator<Item = Met> {
    ways("read", &[1, 5], &[])
        .chain(ways("split read", &[0x11, 0x22, 0x25, 0x55], &[]))
        .chain(ways("write", &[2, 4, 5], &[]))
        .chain(ways("scrub", &[2, 5], &[]))
        .chain(ways("flip", &[0], &[10]))
        .chain(ways("burst read", &[0x1111, 0x5555], &[]))
}

/// Banks 0 to 6 of 129 MB each and bank 7 of 121, up to MB 1023.
fn seven_long_banks() -> Record {
    let mut record = Record::fresh();
    for n in 0..8u8 {
        let start = 129 * u32::from(n);
        draw::set_bank(&mut record, n, start, (start + 128).min(1023), 3);
    }
    record.set(offset::ERROR_ENABLE_1, 0xFF);
    record.set(offset::SWITCH, SWITCH_ON);
    record
}

/// At each corner: calls on its doubleword and the next, before and after each
/// has a bit inverted.
fn calls(rng: &mut Rng, layout: &Layout) -> Vec<Call> {
    let mut calls = Vec::new();
    for corner in corners(layout) {
        let first = corner & !7;
        // After the last address comes the first.
        let next = first.wrapping_add(8);
        let both = Call::Read {
            address: first + 5,
            count: 8,
        };
        calls.extend([first, next].map(|address| Call::Write {
            address,
            bytes: rng.bytes(8),
        }));
        calls.extend([
            both.clone(),
            Call::Read {
                address: corner,
                count: 1,
            },
        ]);
        calls.extend([first, next].map(|address| Call::Flip {
            address,
            bit: rng.below(72) as u8,
        }));
        calls.extend([
            both,
            Call::Write {
                address: first,
                bytes: rng.bytes(3),
            },
            Call::Scrub { address: next },
            Call::BurstRead {
                address: first,
                count: 32,
            },
        ]);
    }
    calls
}

fn same(
    library: &mut State,
    model: &mut State,
    call: &Call,
    coverage: &mut Coverage<Met>,
) -> Result<(), String> {
    let request = Request::Listed(call.clone());
    let from_library = library.ask_library(&request);
    let from_model = model.ask_model(&request);
    coverage.meet(met(&request, from_model.way(&request)));
    match Given::difference(&from_library, &from_model) {
        Some(difference) => Err(format!("{request}: {difference}")),
        None => Ok(()),
    }
}

/// REF-9 at every corner that has a cell: of the cell one byte, all but its last
/// and all of it lent. The number of lengths tried.
fn just_lent(record: &Record, layout: &Layout) -> Result<usize, String> {
    let places = corners(layout)
        .into_iter()
        .filter_map(|address| Some((address, layout.locate(address)?.cell)));
    let mut tried = 0;
    for (address, cell) in places {
        let end = CELL_BYTES * (cell as usize + 1);
        for (length, result) in [(end - 8, 9), (end - 1, 9), (end, 0)] {
            let request = Request::Listed(Call::Scrub { address });
            let given = State::zeroed(*record, length).ask_library(&request);
            if given.result != result {
                return Err(format!("{length} lent, {request}: {}", given.shown()));
            }
            tried += 1;
        }
    }
    Ok(tried)
}
