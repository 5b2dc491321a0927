//! The places that a list comes back to.

use crate::gen::{edges, setups, Rng};
use crate::map::Layout;

/// Number of addresses that are used again and again in one list, besides those
/// of [`edges::lines`] and those at both sides of each [`edges::edge`].
const HOT_ADDRESSES: usize = 16;

/// Number of places in one list that many splits run over.
const HOT_EDGES: usize = 8;

pub(super) struct Places {
    /// Doublewords.
    pub hot: Vec<u32>,
    /// The lower doublewords of splits.
    pub edges: Vec<u32>,
}

impl Places {
    /// Random places at which no call reaches a cell that is not lent.
    pub fn choose(rng: &mut Rng, layout: &Layout, lent_cells: u32) -> Self {
        let banks = lent_banks(layout, lent_cells);
        let mut hot: Vec<u32> = (0..HOT_ADDRESSES)
            .map(|_| setups::address(rng, &banks) & !7)
            .collect();
        // All four doublewords, so that one burst meets several flips.
        for line in edges::lines(rng, &banks) {
            hot.extend([0, 8, 16, 24].map(|distance| line + distance));
        }
        let mut edges: Vec<u32> = (0..HOT_EDGES).map(|_| edges::edge(rng, &banks)).collect();
        // Both doublewords, so that one split meets two flips.
        for edge in &edges {
            hot.extend([*edge, edge.wrapping_add(8)]);
        }
        hot.retain(|&address| is_lent_around(layout, lent_cells, address));
        edges.retain(|&address| is_lent_around(layout, lent_cells, address));
        // Without a bank, and so left in any case.
        hot.push(0xFFFF_FFF8);
        edges.push(0xFFFF_FFF0);
        Places { hot, edges }
    }
}

/// The banks that have lent cells; not all cells of the highest need be lent.
fn lent_banks(layout: &Layout, lent_cells: u32) -> Layout {
    let mut lent = *layout;
    let mut lower_cells = 0;
    for (n, bank) in layout.enabled() {
        if lower_cells >= lent_cells {
            lent.banks[usize::from(n)] = None;
        }
        lower_cells += bank.cells();
    }
    lent
}

/// True if a call at an address can't reach a cell that is not lent: no
/// doubleword of its line has one, nor the two beside the line, which splits run
/// into.
fn is_lent_around(layout: &Layout, lent_cells: u32, address: u32) -> bool {
    let before = (address & !31).wrapping_sub(8);
    (0..6).all(|number| {
        let place = layout.locate(before.wrapping_add(8 * number));
        place.is_none_or(|place| place.cell < lent_cells)
    })
}
