//! The C calls as they are, of `include/selvaigo.h`, which says what each does. `tests/header.rs` holds the two together.
//!
//! # Safety
//!
//! Of every call: a pointer and the length behind it are those of a slice, and not null for an empty one; a pointer to an array is
//! valid for that array; what is written overlaps nothing else that the call is given. The calls named `.._held` ask besides that
//! record and tables hold a state of docs/LAYOUT.md, which they do where nothing but these calls has written them.

/// Words in the state record of the counters.
pub const STATE: usize = 16;

/// Words in the state record of the nursery.
pub const NURSERY: usize = 4;

/// The standard delay.
pub const STANDARD_DELAY: u64 = 100;

/// The standard shrink base.
pub const STANDARD_SHRINK_BASE: u64 = 131_072;

/// The standard shrink maximum.
pub const STANDARD_SHRINK_MAX: u64 = 2_097_152;

/// The standard good save.
pub const STANDARD_GOOD_SAVE: u64 = 1_048_576;

unsafe extern "C" {
    /// Counters with nothing stored.
    pub fn selvaigo_new(
        next_idx: u64,
        shrink_base: u64,
        shrink_max: u64,
        good_save: u64,
        state: *mut [u64; STATE],
        counts: *mut u64,
        counts_len: usize,
    ) -> u8;
    /// The next index, handed out.
    pub fn selvaigo_alloc_idx(state: *mut [u64; STATE], idx: *mut [u64; 1]) -> u8;
    /// The count at an index.
    pub fn selvaigo_get(state: *const [u64; STATE], counts: *const u64, counts_len: usize, idx: u64, count: *mut [u64; 1]) -> u8;
    /// The same, where record and table hold a state.
    pub fn selvaigo_get_held(
        state: *const [u64; STATE],
        counts: *const u64,
        counts_len: usize,
        idx: u64,
        count: *mut [u64; 1],
    ) -> u8;
    /// A batch, taken whole or refused whole.
    pub fn selvaigo_apply_batch(
        state: *mut [u64; STATE],
        counts: *mut u64,
        counts_len: usize,
        batch: *const u64,
        batch_len: usize,
    ) -> u8;
    /// The same, where record and table hold a state.
    pub fn selvaigo_apply_batch_held(
        state: *mut [u64; STATE],
        counts: *mut u64,
        counts_len: usize,
        batch: *const u64,
        batch_len: usize,
    ) -> u8;
    /// Which of the sets are to be shrunk.
    pub fn selvaigo_shrink_if_needed(
        state: *mut [u64; STATE],
        counts: *const u64,
        counts_len: usize,
        bytes_saved: u64,
        shrunk: *mut [u64; 9],
    ) -> u8;
    /// The same, where record and table hold a state.
    pub fn selvaigo_shrink_if_needed_held(
        state: *mut [u64; STATE],
        counts: *const u64,
        counts_len: usize,
        bytes_saved: u64,
        shrunk: *mut [u64; 9],
    ) -> u8;
    /// The rule of shrinking: 1 yes, 0 no.
    pub fn selvaigo_should_shrink(alive: u64, removed_since_shrink: u64, min_removed: u64) -> u8;
    /// The alive threshold after a shrinking.
    pub fn selvaigo_adjust_shrink_threshold(
        min_alive_removed_before_shrink: u64,
        bytes_saved: u64,
        shrink_base: u64,
        shrink_max: u64,
        good_save: u64,
    ) -> u64;
    /// How many bytes the snapshot takes.
    pub fn selvaigo_serialized_len(state: *const [u64; STATE], counts: *const u64, counts_len: usize, len: *mut [u64; 1]) -> u8;
    /// The same, where record and table hold a state.
    pub fn selvaigo_serialized_len_held(
        state: *const [u64; STATE],
        counts: *const u64,
        counts_len: usize,
        len: *mut [u64; 1],
    ) -> u8;
    /// The snapshot.
    pub fn selvaigo_serialize(
        state: *const [u64; STATE],
        counts: *const u64,
        counts_len: usize,
        out: *mut u8,
        out_len: usize,
        len: *mut [u64; 1],
    ) -> u8;
    /// The same, where record and table hold a state.
    pub fn selvaigo_serialize_held(
        state: *const [u64; STATE],
        counts: *const u64,
        counts_len: usize,
        out: *mut u8,
        out_len: usize,
        len: *mut [u64; 1],
    ) -> u8;
    /// The counters of a snapshot, into a record and a table of any content.
    pub fn selvaigo_deserialize_trusted(
        snapshot: *const u8,
        snapshot_len: usize,
        shrink_base: u64,
        shrink_max: u64,
        good_save: u64,
        state: *mut [u64; STATE],
        counts: *mut u64,
        counts_len: usize,
    ) -> u8;
    /// The same for a snapshot whose live total may be too low, which is raised.
    pub fn selvaigo_load_snapshot(
        snapshot: *const u8,
        snapshot_len: usize,
        shrink_base: u64,
        shrink_max: u64,
        good_save: u64,
        state: *mut [u64; STATE],
        counts: *mut u64,
        counts_len: usize,
        old_total: *mut [u64; 1],
    ) -> u8;
    /// An empty nursery.
    pub fn selvaigo_nursery_new(
        delay: u64,
        nursery: *mut [u64; NURSERY],
        entries: *mut u64,
        entries_len: usize,
        waiting: *mut u64,
        waiting_len: usize,
        cells: *mut u8,
        cells_len: usize,
    ) -> u8;
    /// A delta, taken whole or refused whole.
    pub fn selvaigo_apply_commit(
        nursery: *mut [u64; NURSERY],
        entries: *mut u64,
        entries_len: usize,
        waiting: *mut u64,
        waiting_len: usize,
        cells: *mut u8,
        cells_len: usize,
        wide: u8,
        inserts: u64,
        removes: u64,
        items: *const u8,
        items_len: usize,
    ) -> u8;
    /// The same, where record and tables hold a state.
    pub fn selvaigo_apply_commit_held(
        nursery: *mut [u64; NURSERY],
        entries: *mut u64,
        entries_len: usize,
        waiting: *mut u64,
        waiting_len: usize,
        cells: *mut u8,
        cells_len: usize,
        wide: u8,
        inserts: u64,
        removes: u64,
        items: *const u8,
        items_len: usize,
    ) -> u8;
    /// What is due for promotion at a round.
    pub fn selvaigo_drain_promotable(
        nursery: *mut [u64; NURSERY],
        entries: *const u64,
        entries_len: usize,
        waiting: *mut u64,
        waiting_len: usize,
        cells: *const u8,
        cells_len: usize,
        round: u32,
        out: *mut u8,
        out_len: usize,
        len: *mut [u64; 1],
    ) -> u8;
    /// The same, where record and tables hold a state.
    pub fn selvaigo_drain_promotable_held(
        nursery: *mut [u64; NURSERY],
        entries: *const u64,
        entries_len: usize,
        waiting: *mut u64,
        waiting_len: usize,
        cells: *const u8,
        cells_len: usize,
        round: u32,
        out: *mut u8,
        out_len: usize,
        len: *mut [u64; 1],
    ) -> u8;
    /// The index of a hash.
    pub fn selvaigo_get_idx(
        nursery: *const [u64; NURSERY],
        entries: *const u64,
        entries_len: usize,
        hash: *const [u8; 32],
        found: *mut [u64; 2],
    ) -> u8;
    /// The same, where record and table hold a state.
    pub fn selvaigo_get_idx_held(
        nursery: *const [u64; NURSERY],
        entries: *const u64,
        entries_len: usize,
        hash: *const [u8; 32],
        found: *mut [u64; 2],
    ) -> u8;
    /// Where the cell of a hash lies.
    pub fn selvaigo_get_data(
        nursery: *const [u64; NURSERY],
        entries: *const u64,
        entries_len: usize,
        cells: *const u8,
        cells_len: usize,
        hash: *const [u8; 32],
        found: *mut [u64; 3],
    ) -> u8;
    /// The same, where record and tables hold a state.
    pub fn selvaigo_get_data_held(
        nursery: *const [u64; NURSERY],
        entries: *const u64,
        entries_len: usize,
        cells: *const u8,
        cells_len: usize,
        hash: *const [u8; 32],
        found: *mut [u64; 3],
    ) -> u8;
    /// The listing.
    pub fn selvaigo_snapshot_entries(
        nursery: *const [u64; NURSERY],
        entries: *const u64,
        entries_len: usize,
        cells: *const u8,
        cells_len: usize,
        out: *mut u8,
        out_len: usize,
        len: *mut [u64; 1],
    ) -> u8;
    /// The same, where record and tables hold a state.
    pub fn selvaigo_snapshot_entries_held(
        nursery: *const [u64; NURSERY],
        entries: *const u64,
        entries_len: usize,
        cells: *const u8,
        cells_len: usize,
        out: *mut u8,
        out_len: usize,
        len: *mut [u64; 1],
    ) -> u8;
    /// BLAKE3 of bytes.
    pub fn selvaigo_hash(bytes: *const u8, bytes_len: usize, hash: *mut [u8; 32]);
    /// BLAKE3 of bytes under a key.
    pub fn selvaigo_keyed_hash(key: *const u8, key_len: usize, bytes: *const u8, bytes_len: usize, hash: *mut [u8; 32]) -> u8;
    /// The record of a delta.
    pub fn selvaigo_encode_record(
        keyed: u8,
        key: *const u8,
        key_len: usize,
        id: u64,
        wide: u8,
        inserts: u64,
        removes: u64,
        items: *const u8,
        items_len: usize,
        out: *mut u8,
        out_len: usize,
        figures: *mut [u64; 6],
    ) -> u8;
    /// The record that bytes start with.
    pub fn selvaigo_decode_record(
        keyed: u8,
        key: *const u8,
        key_len: usize,
        bytes: *const u8,
        bytes_len: usize,
        figures: *mut [u64; 8],
        hash: *mut [u8; 32],
    ) -> u8;
    /// The records of a journal, applied to nothing.
    pub fn selvaigo_scan_journal(
        keyed: u8,
        key: *const u8,
        key_len: usize,
        journal: *const u8,
        journal_len: usize,
        scan: *mut [u64; 3],
    ) -> u8;
    /// A journal, read into an empty nursery in tables of any content.
    pub fn selvaigo_read_journal(
        keyed: u8,
        key: *const u8,
        key_len: usize,
        journal: *const u8,
        journal_len: usize,
        delay: u64,
        nursery: *mut [u64; NURSERY],
        entries: *mut u64,
        entries_len: usize,
        waiting: *mut u64,
        waiting_len: usize,
        cells: *mut u8,
        cells_len: usize,
        read: *mut [u64; 3],
    ) -> u8;
    /// A journal rewritten without leftovers, and the list of what was dropped.
    pub fn selvaigo_convert_journal(
        journal: *const u8,
        journal_len: usize,
        out: *mut u8,
        out_len: usize,
        dropped: *mut u8,
        dropped_len: usize,
        lengths: *mut [u64; 2],
    ) -> u8;
}
