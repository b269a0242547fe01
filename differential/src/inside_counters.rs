//! What is private in the original's counters.
use super::{CounterMaintenance, Counters};

/// Alive removals, the removals of the eight sets, the alive threshold.
pub type Figures = [u64; 10];

pub fn live(c: &Counters) -> u64 {
    c.live_cells
}

pub fn stored(c: &Counters) -> u64 {
    c.present_in_any_small_tier.cardinality()
}

pub fn large(c: &Counters) -> usize {
    c.large_rc.len()
}

pub fn figures(c: &Counters) -> Figures {
    let m = &c.maintenance;
    let mut all = [0; 10];
    all[0] = m.alive_removed_since_shrink;
    all[1..9].copy_from_slice(&m.small_removed_since_shrink);
    all[9] = m.min_alive_removed_before_shrink;
    all
}

fn maintenance(f: &Figures) -> CounterMaintenance {
    CounterMaintenance {
        alive_removed_since_shrink: f[0],
        small_removed_since_shrink: std::array::from_fn(|i| f[i + 1]),
        min_alive_removed_before_shrink: f[9],
    }
}

pub fn set_figures(c: &mut Counters, f: &Figures) {
    c.maintenance = maintenance(f);
}

/// Shrinks, where the set of all stored indices would save as many bytes as are handed in. The original adds them to others
/// for its log, so a figure that no memory has is brought down.
pub fn shrink(c: &mut Counters, saved: u64) {
    c.present_in_any_small_tier.saved = Some(saved.min(1 << 40) as usize);
    c.shrink_if_needed();
    c.present_in_any_small_tier.saved = None;
}

pub fn should_shrink(alive: u64, removed: u64, min: u64) -> bool {
    super::should_shrink(alive, removed, min)
}

pub fn adjust_shrink_threshold(min: u64, saved: u64) -> u64 {
    let mut m = maintenance(&[0, 0, 0, 0, 0, 0, 0, 0, 0, min]);
    m.adjust_shrink_threshold(saved as usize);
    m.min_alive_removed_before_shrink
}
