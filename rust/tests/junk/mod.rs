//! A nursery's record and tables that hold no state, and a journal that is read over them.
use selvaigo::{NurseryParts, sys};

pub const JUNK: u64 = 0x0505_0505_0505_0505;

/// A record and tables for three entries and nine cell bytes, with content that is no state's.
pub fn junk() -> NurseryParts {
    NurseryParts { nursery: [JUNK; sys::NURSERY], entries: [JUNK; 25].into(), waiting: [JUNK; 16].into(), cells: [5; 9].into() }
}

/// The reading of a journal over it, and what that leaves: the answer, its values, the record and the tables.
pub fn read(keyed: u8, key: &[u8], journal: &[u8], delay: u64) -> (u8, [u64; 3], NurseryParts) {
    let (mut p, mut read) = (junk(), [9; 3]);
    // SAFETY: slices and arrays, none of which overlaps another.
    let answer = unsafe {
        sys::selvaigo_read_journal(
            keyed,
            key.as_ptr(),
            key.len(),
            journal.as_ptr(),
            journal.len(),
            delay,
            &mut p.nursery,
            p.entries.as_mut_ptr(),
            p.entries.len(),
            p.waiting.as_mut_ptr(),
            p.waiting.len(),
            p.cells.as_mut_ptr(),
            p.cells.len(),
            &mut read,
        )
    };
    (answer, read, p)
}
