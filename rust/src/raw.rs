//! The calls over records and tables that the caller lends, of any content, and tables of any length: they are checked first, and what isn't in
//! the layout of docs/LAYOUT.md is refused with [`Refusal::Broken`], as is a setting outside its range. The check is a pass over what is lent, and a
//! look-up for each waiting row. The calls that make or read in write over what is lent, whatever it is; [`Refusal::BadSetting`] comes first, and leaves it.
//!
//! The calls that hash records are lent a key, of any length, or none: [`Mode::key`](crate::Mode::key) gives a mode's. A key that isn't of 32 bytes is refused with
//! [`Refusal::BadSetting`], before anything else.
use std::borrow::Cow;
use std::ops::Range;

use crate::{
    DecodedRecord, DeltaItems, HASH_LEN, HashBytes, Idx, JournalEnd, JournalScan, NextIdx, RecordStats, RefCount, Refusal,
    ShrinkSettings, Shrunk, size, sys,
};

// SAFETY, of every call below: pointers and lengths are those of slices and arrays that are borrowed for the call, and what is borrowed to be
// written overlaps nothing. The checked calls ask no more.

/// Counters with nothing stored, in a record and a table of any content. Only [`Refusal::BadSetting`] refuses it.
pub fn new(
    next_idx: NextIdx,
    settings: ShrinkSettings,
    state: &mut [u64; sys::STATE],
    counts: &mut [u64],
) -> Result<(), Refusal> {
    let ShrinkSettings { base, max, good_save } = settings;
    // SAFETY: an array and a slice, see above.
    Refusal::of(unsafe { sys::selvaigo_new(next_idx.get(), base, max, good_save, state, counts.as_mut_ptr(), counts.len()) })
}

/// The next index, handed out.
pub fn alloc_idx(state: &mut [u64; sys::STATE]) -> Result<Idx, Refusal> {
    let mut idx = [0];
    // SAFETY: arrays, see above.
    Refusal::of(unsafe { sys::selvaigo_alloc_idx(state, &mut idx) })?;
    Ok(Idx::new(idx[0]))
}

/// The count at an index.
pub fn get(state: &[u64; sys::STATE], counts: &[u64], idx: Idx) -> Result<RefCount, Refusal> {
    let mut count = [0];
    // SAFETY: slices and arrays, see above.
    Refusal::of(unsafe { sys::selvaigo_get(state, counts.as_ptr(), counts.len(), idx.get(), &mut count) })?;
    Ok(RefCount::new(count[0]))
}

/// A batch, three words a transition: index, old, new.
pub fn apply_batch(state: &mut [u64; sys::STATE], counts: &mut [u64], batch: &[u64]) -> Result<(), Refusal> {
    // SAFETY: slices and arrays, see above.
    Refusal::of(unsafe { sys::selvaigo_apply_batch(state, counts.as_mut_ptr(), counts.len(), batch.as_ptr(), batch.len()) })
}

/// Which of the sets are to be shrunk.
pub fn shrink_if_needed(state: &mut [u64; sys::STATE], counts: &[u64], bytes_saved: u64) -> Result<Shrunk, Refusal> {
    let mut shrunk = [0; 9];
    // SAFETY: slices and arrays, see above.
    Refusal::of(unsafe { sys::selvaigo_shrink_if_needed(state, counts.as_ptr(), counts.len(), bytes_saved, &mut shrunk) })?;
    Ok(Shrunk::of(shrunk))
}

/// How many bytes the snapshot takes.
pub fn serialized_len(state: &[u64; sys::STATE], counts: &[u64]) -> Result<usize, Refusal> {
    let mut len = [0];
    // SAFETY: slices and arrays, see above.
    Refusal::of(unsafe { sys::selvaigo_serialized_len(state, counts.as_ptr(), counts.len(), &mut len) })?;
    Ok(size(len[0]))
}

/// The snapshot, into the front of `out`: its length.
pub fn serialize(state: &[u64; sys::STATE], counts: &[u64], out: &mut [u8]) -> Result<usize, Refusal> {
    let mut len = [0];
    // SAFETY: slices and arrays, see above.
    Refusal::of(unsafe { sys::selvaigo_serialize(state, counts.as_ptr(), counts.len(), out.as_mut_ptr(), out.len(), &mut len) })?;
    Ok(size(len[0]))
}

/// The counters of a snapshot, with settings, into a record and a table of any content.
pub fn deserialize_trusted(
    snapshot: &[u8],
    settings: ShrinkSettings,
    state: &mut [u64; sys::STATE],
    counts: &mut [u64],
) -> Result<(), Refusal> {
    let ShrinkSettings { base, max, good_save } = settings;
    // SAFETY: slices and arrays, see above.
    Refusal::of(unsafe {
        sys::selvaigo_deserialize_trusted(
            snapshot.as_ptr(),
            snapshot.len(),
            base,
            max,
            good_save,
            state,
            counts.as_mut_ptr(),
            counts.len(),
        )
    })
}

/// The same for a snapshot whose live total may be below its number of counts, as [`crate::Counters::load_snapshot`] says: the live total that
/// the snapshot has.
pub fn load_snapshot(
    snapshot: &[u8],
    settings: ShrinkSettings,
    state: &mut [u64; sys::STATE],
    counts: &mut [u64],
) -> Result<u64, Refusal> {
    let ShrinkSettings { base, max, good_save } = settings;
    let mut old_total = [0];
    // SAFETY: slices and arrays, see above.
    Refusal::of(unsafe {
        sys::selvaigo_load_snapshot(
            snapshot.as_ptr(),
            snapshot.len(),
            base,
            max,
            good_save,
            state,
            counts.as_mut_ptr(),
            counts.len(),
            &mut old_total,
        )
    })?;
    Ok(old_total[0])
}

/// An empty nursery with a delay, in a record and tables of any content. Only [`Refusal::BadSetting`] refuses it.
pub fn nursery_new(
    delay: u64,
    nursery: &mut [u64; sys::NURSERY],
    entries: &mut [u64],
    waiting: &mut [u64],
    cells: &mut [u8],
) -> Result<(), Refusal> {
    // SAFETY: an array and slices, see above.
    Refusal::of(unsafe {
        sys::selvaigo_nursery_new(
            delay,
            nursery,
            entries.as_mut_ptr(),
            entries.len(),
            waiting.as_mut_ptr(),
            waiting.len(),
            cells.as_mut_ptr(),
            cells.len(),
        )
    })
}

/// A delta. Items that aren't what the numbers state are [`Refusal::Broken`].
pub fn apply_commit(
    nursery: &mut [u64; sys::NURSERY],
    entries: &mut [u64],
    waiting: &mut [u64],
    cells: &mut [u8],
    items: &DeltaItems<'_>,
) -> Result<(), Refusal> {
    // SAFETY: slices and arrays, see above.
    Refusal::of(unsafe {
        sys::selvaigo_apply_commit(
            nursery,
            entries.as_mut_ptr(),
            entries.len(),
            waiting.as_mut_ptr(),
            waiting.len(),
            cells.as_mut_ptr(),
            cells.len(),
            items.wide.into(),
            items.inserts,
            items.removes,
            items.bytes.as_ptr(),
            items.bytes.len(),
        )
    })
}

/// What is due for promotion at a round, into the front of `out`: its length. [`crate::PromotedCell::all`] reads it.
pub fn drain_promotable(
    nursery: &mut [u64; sys::NURSERY],
    entries: &[u64],
    waiting: &mut [u64],
    cells: &[u8],
    round: u32,
    out: &mut [u8],
) -> Result<usize, Refusal> {
    let mut len = [0];
    // SAFETY: slices and arrays, see above.
    Refusal::of(unsafe {
        sys::selvaigo_drain_promotable(
            nursery,
            entries.as_ptr(),
            entries.len(),
            waiting.as_mut_ptr(),
            waiting.len(),
            cells.as_ptr(),
            cells.len(),
            round,
            out.as_mut_ptr(),
            out.len(),
            &mut len,
        )
    })?;
    Ok(size(len[0]))
}

/// The index of a hash.
pub fn get_idx(nursery: &[u64; sys::NURSERY], entries: &[u64], hash: &HashBytes) -> Result<Option<Idx>, Refusal> {
    let mut found = [0; 2];
    // SAFETY: slices and arrays, see above.
    Refusal::of(unsafe { sys::selvaigo_get_idx(nursery, entries.as_ptr(), entries.len(), &hash.0, &mut found) })?;
    Ok((found[0] != 0).then_some(Idx::new(found[1])))
}

/// Where the cell of a hash lies in the cells.
pub fn get_data(
    nursery: &[u64; sys::NURSERY],
    entries: &[u64],
    cells: &[u8],
    hash: &HashBytes,
) -> Result<Option<Range<usize>>, Refusal> {
    let mut found = [0; 3];
    // SAFETY: slices and arrays, see above.
    Refusal::of(unsafe {
        sys::selvaigo_get_data(nursery, entries.as_ptr(), entries.len(), cells.as_ptr(), cells.len(), &hash.0, &mut found)
    })?;
    Ok((found[0] != 0).then(|| size(found[1])..size(found[1] + found[2])))
}

/// The listing, into the front of `out`: its length. [`DeltaItems::to_delta`] reads it, as inserts that aren't wide.
pub fn snapshot_entries(nursery: &[u64; sys::NURSERY], entries: &[u64], cells: &[u8], out: &mut [u8]) -> Result<usize, Refusal> {
    let mut len = [0];
    // SAFETY: slices and arrays, see above.
    Refusal::of(unsafe {
        sys::selvaigo_snapshot_entries(
            nursery,
            entries.as_ptr(),
            entries.len(),
            cells.as_ptr(),
            cells.len(),
            out.as_mut_ptr(),
            out.len(),
            &mut len,
        )
    })?;
    Ok(size(len[0]))
}

// Mode and key as the C calls are given them. In hash mode they look at no byte of a key.
fn keyed(key: Option<&[u8]>) -> (u8, &[u8]) {
    (key.is_some().into(), key.unwrap_or_default())
}

/// BLAKE3 of bytes under a key. Only [`Refusal::BadSetting`] refuses it.
pub fn keyed_hash(key: &[u8], bytes: &[u8]) -> Result<[u8; HASH_LEN], Refusal> {
    let mut hash = [0; HASH_LEN];
    // SAFETY: slices and arrays, see above.
    Refusal::of(unsafe { sys::selvaigo_keyed_hash(key.as_ptr(), key.len(), bytes.as_ptr(), bytes.len(), &mut hash) })?;
    Ok(hash)
}

/// The record of a delta into the front of `out`, as [`crate::encode_items`] says: its length and figures.
pub fn encode_items(
    key: Option<&[u8]>,
    id: u64,
    items: &DeltaItems<'_>,
    out: &mut [u8],
) -> Result<(usize, RecordStats), Refusal> {
    let (keyed, key) = keyed(key);
    let mut figures = [0; 6];
    // SAFETY: slices and arrays, see above.
    Refusal::of(unsafe {
        sys::selvaigo_encode_record(
            keyed,
            key.as_ptr(),
            key.len(),
            id,
            items.wide.into(),
            items.inserts,
            items.removes,
            items.bytes.as_ptr(),
            items.bytes.len(),
            out.as_mut_ptr(),
            out.len(),
            &mut figures,
        )
    })?;
    let [len, stats @ ..] = figures;
    Ok((size(len), RecordStats::of(stats)))
}

/// The record that bytes start with, as [`crate::decode_record`] says.
pub fn decode_record<'a>(key: Option<&[u8]>, bytes: &'a [u8]) -> Result<DecodedRecord<'a>, Refusal> {
    let (keyed, key) = keyed(key);
    let (mut figures, mut hash) = ([0; 8], [0; HASH_LEN]);
    // SAFETY: slices and arrays, see above.
    Refusal::of(unsafe {
        sys::selvaigo_decode_record(keyed, key.as_ptr(), key.len(), bytes.as_ptr(), bytes.len(), &mut figures, &mut hash)
    })?;
    let [id, place, len, stats @ ..] = figures;
    let stats = RecordStats::of(stats);
    let items = &bytes[size(place)..][..size(len)];
    let items = DeltaItems { wide: false, inserts: stats.insert_ops, removes: stats.remove_ops, bytes: Cow::Borrowed(items) };
    Ok(DecodedRecord { id, hash, items, stats })
}

/// The records of a journal, up to its end or the first one that is refused: the first pass of a reading by itself, which is lent no table. Only
/// [`Refusal::BadSetting`] refuses it.
pub fn scan_journal(key: Option<&[u8]>, journal: &[u8]) -> Result<JournalScan, Refusal> {
    let (keyed, key) = keyed(key);
    let mut scan = [0; 3];
    // SAFETY: slices and arrays, see above.
    Refusal::of(unsafe {
        sys::selvaigo_scan_journal(keyed, key.as_ptr(), key.len(), journal.as_ptr(), journal.len(), &mut scan)
    })?;
    Ok(JournalScan { records: scan[0], place: size(scan[1]), refusal: Refusal::ended(scan[2]) })
}

/// A journal, read into an empty nursery with a delay, in a record and tables of any content. Two refusals leave these as they were:
/// [`Refusal::BadSetting`], of key or delay, whatever the journal is, and then [`Refusal::Damaged`]; [`scan_journal`] says where the damage is.
pub fn read_journal(
    key: Option<&[u8]>,
    journal: &[u8],
    delay: u64,
    nursery: &mut [u64; sys::NURSERY],
    entries: &mut [u64],
    waiting: &mut [u64],
    cells: &mut [u8],
) -> Result<JournalEnd, Refusal> {
    let (keyed, key) = keyed(key);
    let mut read = [0; 3];
    // SAFETY: slices and arrays, see above.
    Refusal::of(unsafe {
        sys::selvaigo_read_journal(
            keyed,
            key.as_ptr(),
            key.len(),
            journal.as_ptr(),
            journal.len(),
            delay,
            nursery,
            entries.as_mut_ptr(),
            entries.len(),
            waiting.as_mut_ptr(),
            waiting.len(),
            cells.as_mut_ptr(),
            cells.len(),
            &mut read,
        )
    })?;
    Ok(JournalEnd { applied: read[0], place: size(read[1]), refusal: Refusal::ended(read[2]) })
}

/// A journal rewritten without leftovers, as [`crate::convert_journal`] says, into the front of `out`, and the list of what was dropped, for
/// [`crate::Dropped::all`] to read, into the front of `dropped`: the two lengths. Only [`Refusal::OutputFull`] refuses it, where either is too short,
/// and then both are as they were. As many bytes as the journal has, and 16 for each 57 of them, are always enough.
pub fn convert_journal(journal: &[u8], out: &mut [u8], dropped: &mut [u8]) -> Result<[usize; 2], Refusal> {
    let mut lengths = [0; 2];
    // SAFETY: slices and arrays, see above.
    Refusal::of(unsafe {
        sys::selvaigo_convert_journal(
            journal.as_ptr(),
            journal.len(),
            out.as_mut_ptr(),
            out.len(),
            dropped.as_mut_ptr(),
            dropped.len(),
            &mut lengths,
        )
    })?;
    Ok(lengths.map(size))
}
