//! Makes a failing input smaller while it still fails.

use std::time::{Duration, Instant};

/// Shrinking ends after this time with the smallest input found so far.
const LIMIT: Duration = Duration::from_secs(6);

/// The time that is left for one failing input.
pub struct Budget {
    end: Instant,
}

impl Budget {
    pub fn new() -> Self {
        Budget {
            end: Instant::now() + LIMIT,
        }
    }

    fn is_spent(&self) -> bool {
        Instant::now() >= self.end
    }
}

/// Removes runs of items, shorter and shorter ones, as long as the rest still
/// fails.
pub fn fewer<T: Clone>(
    budget: &Budget,
    mut items: Vec<T>,
    mut fails: impl FnMut(&[T]) -> bool,
) -> Vec<T> {
    let mut stretch = items.len().div_ceil(2).max(1);
    loop {
        let before = items.len();
        let mut at = 0;
        while at < items.len() {
            if budget.is_spent() {
                return items;
            }
            let end = (at + stretch).min(items.len());
            let rest = [&items[..at], &items[end..]].concat();
            if fails(&rest) {
                items = rest;
            } else {
                at = end;
            }
        }
        // Single items are tried again until none of them can be removed.
        if stretch == 1 && items.len() == before {
            return items;
        }
        stretch = stretch.div_ceil(2).max(1);
    }
}

/// Clears runs of bytes, then single bits, as long as the rest still fails;
/// repeatedly, since one byte may matter only because of another.
pub fn zeroed(
    budget: &Budget,
    mut bytes: Vec<u8>,
    mut fails: impl FnMut(&[u8]) -> bool,
) -> Vec<u8> {
    loop {
        let before = bytes.clone();
        let mut stretch = bytes.len();
        while stretch > 0 {
            zero_stretches(budget, &mut bytes, stretch, &mut fails);
            stretch /= 2;
        }
        clear_bits(budget, &mut bytes, &mut fails);
        if bytes == before {
            return bytes;
        }
    }
}

fn zero_stretches(
    budget: &Budget,
    bytes: &mut [u8],
    stretch: usize,
    fails: &mut impl FnMut(&[u8]) -> bool,
) {
    for at in (0..bytes.len()).step_by(stretch) {
        let end = (at + stretch).min(bytes.len());
        if bytes[at..end].iter().all(|&byte| byte == 0) {
            continue;
        }
        if budget.is_spent() {
            return;
        }
        let kept = bytes[at..end].to_vec();
        bytes[at..end].fill(0);
        if !fails(bytes) {
            bytes[at..end].copy_from_slice(&kept);
        }
    }
}

fn clear_bits(budget: &Budget, bytes: &mut [u8], fails: &mut impl FnMut(&[u8]) -> bool) {
    for at in 0..bytes.len() {
        for bit in (0..8).map(|shift| 1u8 << shift) {
            if bytes[at] & bit == 0 {
                continue;
            }
            if budget.is_spent() {
                return;
            }
            bytes[at] ^= bit;
            if !fails(bytes) {
                bytes[at] ^= bit;
            }
        }
    }
}
