//! The storage core of a network node, for a node in Rust: it counts references to stored cells, holds young cells until they are promoted, and
//! writes and reads their snapshots, records and journals. The work is done by a library that is proved; this crate owns the tables that the library is lent, so
//! that nothing else writes them, and says refusals as [`Refusal`].
//!
//! A [`NodeBox`] is [`Counters`] and a [`CellNursery`], in tables whose [`Room`] the caller chooses, with [`Settings`] and a [`Mode`] that it keeps. A call is
//! taken whole or refused whole.
//!
//! ```
//! use selvaigo::{CounterTransition, Mode, NextIdx, NodeBox, RefCount, Room, Settings};
//!
//! let (room, settings) = (Room { counts: 1_024, entries: 256, cell_bytes: 16_384 }, Settings::default());
//! let mut node = NodeBox::new(NextIdx::new(0), room, settings, Mode::Unkeyed)?;
//! let idx = node.counters.alloc_idx()?;
//! node.counters.apply_batch(&[CounterTransition { idx, old_raw: 0, new_raw: 3 }])?;
//! assert_eq!(node.counters.get(idx)?, RefCount::new(3));
//!
//! let again = NodeBox::restore(&node.counters.serialize(), &[], room, settings, Mode::Unkeyed)?;
//! assert_eq!(again.node_box.counters.get(idx)?, RefCount::new(3));
//! # Ok::<(), Box<dyn std::error::Error>>(())
//! ```
//!
//! The library, libselvaigo.a, is linked from the folder in the environment variable `SELVAIGO_LIB`, or else from `target/staticlib` beside this crate's
//! folder, where `tools/staticlib.sh` writes it.
//!
//! [`raw`] has the same calls over tables that the caller lends, checked in each call, and [`sys`] the C calls as they are.
#![deny(missing_docs)]
#![deny(unsafe_op_in_unsafe_fn)]

mod cell_nursery;
mod counters;
mod format;
mod journal;
mod mode;
mod node_box;
pub mod raw;
mod refusal;
mod settings;
pub mod sys;

pub use cell_nursery::{CellNursery, DeltaItems, HashBytes, NurseryDelta, NurseryEntryRecord, NurseryParts, PromotedCell};
pub use counters::{
    CounterBatch, CounterMaintenance, CounterTransition, Counters, Idx, Loaded, NextIdx, RefCount, Shrunk,
    adjust_shrink_threshold, should_shrink,
};
pub use format::{
    DecodedRecord, EncodedRecord, HASH_LEN, RecordStats, decode_record, encode_items, encode_record, hash, keyed_hash,
};
pub use journal::{
    Converted, DamagedRecord, Dropped, JournalEnd, JournalError, JournalScan, convert_journal, read_journal, scan_journal,
};
pub use mode::Mode;
pub use node_box::{NodeBox, RestoreError, Restored, Room};
pub use refusal::Refusal;
pub use settings::{Settings, ShrinkSettings};

// The length of a table of so many rows. Tables are asked for when a box is made; more than a slice can be is the caller's mistake, as it is for a `Vec`.
fn words(rows: usize, width: usize) -> usize {
    rows.checked_mul(width).expect("more room than a slice can have")
}

// A number of the port's that counts what lies in memory.
fn size(number: u64) -> usize {
    usize::try_from(number).expect("a length in memory")
}

// The answer where nothing is left to refuse: of a held call over tables that the port wrote.
fn taken(answer: u8) {
    if let Err(refusal) = Refusal::of(answer) {
        panic!("the port refused what it always takes: {refusal}");
    }
}
