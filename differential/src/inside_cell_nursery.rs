//! What is private in the original's nursery.
use std::sync::atomic::Ordering;

use super::CellNursery;

pub fn cell_bytes(n: &CellNursery) -> u64 {
    n.live_cell_bytes.load(Ordering::Relaxed)
}

pub fn entries(n: &CellNursery) -> usize {
    n.entries.read().iter().map(|stripe| stripe.len()).sum()
}
