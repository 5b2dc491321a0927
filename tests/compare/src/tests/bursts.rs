//! Line bursts: one from any state, lines at the edges of banks and of the
//! address space, and lines that are lent in part.

use model::code::{CELL_BYTES, FLIP_BITS};
use model::gen::{setups, Rng};
use model::map;
use model::Call;

use crate::case::Case;
use crate::coverage::Coverage;
use crate::draw;
use crate::in_turn;
use crate::lent;
use crate::request::Request;
use crate::ways::{every_bit, mixtures, ways, Met};

const CASES: usize = 60_000;

const EDGE_CASES: usize = 24;

/// Cells of all banks together where all are lent: some megabytes.
const EDGE_CELLS: u32 = 1 << 19;

const LENT_CASES: usize = 60;

/// One burst on each record, with few cells of all conditions lent.
pub fn from_any_state(rng: &mut Rng) -> Result<String, String> {
    let mut coverage = Coverage::new();
    for _ in 0..CASES {
        let (mut case, hot) = lent::few_cells(rng);
        let layout = map::judge(&case.record).ok();
        let address = lent::hot_address(rng, layout.as_ref(), &hot);
        let burst = draw::burst(rng, address);
        case.requests.push(Request::Listed(burst.clone()));
        case.check(&mut coverage)?;
        in_turn::check(&case, &burst)?;
    }
    coverage.check(all_ways())?;
    Ok(format!("{CASES} records and cells, one burst each"))
}

/// Both ends of a bank, the lines beside it and both ends of the address space,
/// from each doubleword of the line. All cells are lent.
pub fn edges(rng: &mut Rng) -> Result<String, String> {
    let mut coverage = Coverage::new();
    for _ in 0..EDGE_CASES {
        edge_case(rng).check(&mut coverage)?;
    }
    let reads = ways("burst read", &[0x1111, 0x5555], &[]);
    coverage.check(reads.chain(ways("burst write", &[0x4444, 0x5555], &[])))?;
    Ok(format!("{EDGE_CASES} records, 6 lines each"))
}

/// Every number of bytes with which lent cells can end in a line or in the cell
/// after it, and each doubleword of the line as the first one.
pub fn partly_lent(rng: &mut Rng) -> Result<String, String> {
    let mut coverage = Coverage::new();
    for _ in 0..LENT_CASES {
        let first = 4 * rng.below(3);
        let (record, line) = lent::record_with_cell(rng, first);
        let cells = lent::cells(rng, first + 5);
        for lent in CELL_BYTES * first as usize..cells.len() {
            let is_whole = lent >= CELL_BYTES * (first as usize + 4);
            for address in (line..).step_by(8).take(4) {
                let case = Case {
                    record,
                    cells: cells[..lent].to_vec(),
                    requests: both_bursts(rng, address).to_vec(),
                };
                case.check_lent(is_whole, &mut coverage)?;
            }
        }
    }
    let reads = ways("burst read", &[], &[9]);
    coverage.check(reads.chain(ways("burst write", &[0x4444], &[9])))?;
    Ok(format!("{LENT_CASES} lines, each length that is lent"))
}

/// All ways that bursts go. A line lies in one bank or in none.
pub fn all_ways() -> impl Iterator<Item = Met> {
    mixtures("burst read", 4, &[1, 2, 3])
        .chain(every_bit("burst read", 4))
        .chain(ways("burst read", &[0x5555], &[5, 9, 19, 20]))
        .chain(ways("burst write", &[0x4444, 0x5555], &[5, 9, 19, 20]))
}

fn edge_case(rng: &mut Rng) -> Case {
    let mut record = setups::accepted(rng, EDGE_CELLS);
    draw::scatter_error_registers(rng, &mut record);
    let layout = map::judge(&record).expect("accepted");
    let banks: Vec<_> = layout.enabled().map(|(_, bank)| *bank).collect();
    let bank = rng.pick(&banks);
    let first = bank.start_mb << 20;
    let after = (bank.last_mb + 1) << 20;
    let lines = [first, after - 32, first.wrapping_sub(32), after];
    let ends = [0, 0xFFFF_FFE0];
    let mut requests = Vec::new();
    for line in lines.into_iter().chain(ends) {
        for start in [0, 8, 16, 24] {
            requests.extend(line_requests(rng, line, start));
        }
    }
    Case {
        record,
        cells: vec![0; CELL_BYTES * layout.cells() as usize],
        requests,
    }
}

/// A burst write, some flips, a burst read, and reads that show where the bytes
/// went.
fn line_requests(rng: &mut Rng, line: u32, start: u32) -> Vec<Request> {
    let address = line + start;
    let bytes = rng.bytes(32);
    let mut calls = vec![Call::BurstWrite { address, bytes }];
    for _ in 0..rng.below(4) {
        let address = line + rng.below(32);
        let bit = rng.below(u32::from(FLIP_BITS)) as u8;
        calls.push(Call::Flip { address, bit });
    }
    calls.push(Call::BurstRead { address, count: 32 });
    calls.extend([0, 8, 16, 24].map(|distance| Call::Read {
        address: line + distance,
        count: 8,
    }));
    calls.into_iter().map(Request::Listed).collect()
}

/// The read comes first, so that it finds the cells as they were drawn.
fn both_bursts(rng: &mut Rng, address: u32) -> [Request; 2] {
    let bytes = rng.bytes(32);
    let read = Call::BurstRead { address, count: 32 };
    [read, Call::BurstWrite { address, bytes }].map(Request::Listed)
}
