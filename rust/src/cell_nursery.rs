//! The nursery of a box.
use std::borrow::Cow;
use std::fmt;

use crate::settings::check_delay;
use crate::{Idx, JournalEnd, Mode, Refusal, raw, size, sys, taken, words};

/// The hash of a cell.
#[derive(Clone, Copy, PartialEq, Eq, Hash, PartialOrd, Ord)]
#[repr(transparent)]
pub struct HashBytes(pub [u8; 32]);

impl HashBytes {
    /// Its bytes.
    pub fn as_array(&self) -> &[u8; 32] {
        &self.0
    }
}

impl fmt::Display for HashBytes {
    fn fmt(&self, f: &mut fmt::Formatter<'_>) -> fmt::Result {
        self.0.iter().try_for_each(|byte| write!(f, "{byte:02x}"))
    }
}

impl fmt::Debug for HashBytes {
    fn fmt(&self, f: &mut fmt::Formatter<'_>) -> fmt::Result {
        write!(f, "HashBytes({self})")
    }
}

/// An entry, as a delta inserts it and the listing gives it.
#[derive(Debug, Clone, PartialEq, Eq)]
pub struct NurseryEntryRecord {
    /// The hash of the cell.
    pub hash: HashBytes,
    /// Its index.
    pub idx: Idx,
    /// The round that it was born in.
    pub born_round: u32,
    /// The cell.
    pub data: Vec<u8>,
}

/// Entries to insert, then hashes to remove.
#[derive(Debug, Clone, PartialEq, Eq, Default)]
pub struct NurseryDelta {
    /// Entries whose hashes are not in the nursery.
    pub inserts: Vec<NurseryEntryRecord>,
    /// Hashes; one that is absent removes nothing.
    pub removes: Vec<HashBytes>,
}

impl NurseryDelta {
    /// Whether it has neither an insert nor a remove.
    pub fn is_empty(&self) -> bool {
        self.inserts.is_empty() && self.removes.is_empty()
    }

    /// Its items as bytes, wide where a cell asks for it. A cell that even a wide length can't state is too long.
    pub fn to_items(&self) -> Result<DeltaItems<'static>, Refusal> {
        let wide = self.inserts.iter().any(|e| e.data.len() > usize::from(u16::MAX));
        let mut bytes = Vec::new();
        for e in &self.inserts {
            bytes.extend_from_slice(&e.hash.0);
            bytes.extend_from_slice(&e.idx.get().to_le_bytes());
            bytes.extend_from_slice(&e.born_round.to_le_bytes());
            let len = u32::try_from(e.data.len()).map_err(|_| Refusal::TooLong)?;
            bytes.extend_from_slice(&len.to_le_bytes()[..if wide { 4 } else { 2 }]);
            bytes.extend_from_slice(&e.data);
        }
        for hash in &self.removes {
            bytes.extend_from_slice(&hash.0);
        }
        let (inserts, removes) = (self.inserts.len() as u64, self.removes.len() as u64);
        Ok(DeltaItems { wide, inserts, removes, bytes: Cow::Owned(bytes) })
    }
}

/// A delta as the calls take it: numbers of items, and the items end to end.
#[derive(Debug, Clone, PartialEq, Eq)]
pub struct DeltaItems<'a> {
    /// Whether a cell's length is stated in four bytes and not in two.
    pub wide: bool,
    /// How many inserts there are: hash 32, index u64, born round u32, cell length, cell, all little-endian.
    pub inserts: u64,
    /// How many removes follow: hash 32.
    pub removes: u64,
    /// The items. Bytes after the last one are ignored by the calls that are lent them; a record has none there.
    pub bytes: Cow<'a, [u8]>,
}

// Bytes that are read from the front. None at their end.
struct Front<'a>(&'a [u8]);

impl<'a> Front<'a> {
    fn take(&mut self, len: usize) -> Option<&'a [u8]> {
        let (front, rest) = self.0.split_at_checked(len)?;
        self.0 = rest;
        Some(front)
    }

    fn array<const N: usize>(&mut self) -> Option<[u8; N]> {
        self.take(N).and_then(|bytes| bytes.try_into().ok())
    }

    fn hash(&mut self) -> Option<HashBytes> {
        self.array().map(HashBytes)
    }

    fn idx(&mut self) -> Option<Idx> {
        self.array().map(|bytes| Idx::new(u64::from_le_bytes(bytes)))
    }

    // A cell, led by its length.
    fn cell(&mut self, wide: bool) -> Option<&'a [u8]> {
        let len = if wide { self.array().map(u32::from_le_bytes)? } else { self.array().map(u16::from_le_bytes)?.into() };
        self.take(usize::try_from(len).ok()?)
    }

    fn insert(&mut self, wide: bool) -> Option<NurseryEntryRecord> {
        let (hash, idx) = (self.hash()?, self.idx()?);
        let born_round = self.array().map(u32::from_le_bytes)?;
        Some(NurseryEntryRecord { hash, idx, born_round, data: self.cell(wide)?.to_vec() })
    }
}

impl<'a> DeltaItems<'a> {
    /// Items in bytes that are at hand, with cell lengths of two bytes.
    pub fn borrowed(inserts: u64, removes: u64, bytes: &'a [u8]) -> Self {
        Self { wide: false, inserts, removes, bytes: Cow::Borrowed(bytes) }
    }

    /// The delta that they are; broken where an item runs past the bytes.
    pub fn to_delta(&self) -> Result<NurseryDelta, Refusal> {
        let mut front = Front(&self.bytes);
        let inserts = (0..self.inserts).map(|_| front.insert(self.wide)).collect::<Option<_>>();
        let inserts = inserts.ok_or(Refusal::Broken)?;
        let removes = (0..self.removes).map(|_| front.hash()).collect::<Option<_>>().ok_or(Refusal::Broken)?;
        Ok(NurseryDelta { inserts, removes })
    }
}

/// A cell that is handed out for promotion.
#[derive(Debug, Clone, Copy, PartialEq, Eq)]
pub struct PromotedCell<'a> {
    /// The hash of the cell.
    pub hash: HashBytes,
    /// Its index.
    pub idx: Idx,
    /// The cell.
    pub data: &'a [u8],
}

impl<'a> PromotedCell<'a> {
    /// The cells in what a drain wrote, in their order.
    pub fn all(drained: &'a [u8]) -> impl Iterator<Item = PromotedCell<'a>> {
        let mut front = Front(drained);
        std::iter::from_fn(move || {
            let (hash, idx) = (front.hash()?, front.idx()?);
            Some(PromotedCell { hash, idx, data: front.cell(false)? })
        })
    }
}

/// The record and the tables of a nursery, in the layout of docs/LAYOUT.md.
#[derive(Debug, Clone, PartialEq, Eq)]
pub struct NurseryParts {
    /// The record.
    pub nursery: [u64; sys::NURSERY],
    /// The entries, 8 words each.
    pub entries: Box<[u64]>,
    /// The waiting rows, 5 words each.
    pub waiting: Box<[u64]>,
    /// The cells.
    pub cells: Box<[u8]>,
}

/// Young cells, by hash, in tables that it owns. Nothing but the port writes them, so no call checks them.
#[derive(Clone)]
pub struct CellNursery {
    nursery: [u64; sys::NURSERY],
    entries: Box<[u64]>,
    waiting: Box<[u64]>,
    cells: Box<[u8]>,
}

// SAFETY, of every held call below: record and tables are those that the port's calls have written, or that `from_parts` has seen to hold
// a state; no method lends them to be written. Pointers and lengths are those of slices and arrays borrowed for the call.
impl CellNursery {
    // A record and tables for a call that writes all of them. A delay that it would refuse is refused before anything is asked for.
    fn unread(entries: usize, cell_bytes: usize, delay: u64) -> Result<Self, Refusal> {
        check_delay(delay)?;
        Ok(Self {
            nursery: [0; sys::NURSERY],
            entries: vec![0; words(entries, 8)].into(),
            waiting: vec![0; words(entries, 5)].into(),
            cells: vec![0; cell_bytes].into(),
        })
    }

    /// An empty nursery, with room for so many entries and so many bytes of their cells, and with a delay. Only [`Refusal::BadSetting`] refuses it.
    ///
    /// # Panics
    ///
    /// Where the room is more than a slice can have.
    pub fn new(entries: usize, cell_bytes: usize, delay: u64) -> Result<Self, Refusal> {
        let mut n = Self::unread(entries, cell_bytes, delay)?;
        raw::nursery_new(delay, &mut n.nursery, &mut n.entries, &mut n.waiting, &mut n.cells)?;
        Ok(n)
    }

    // The nursery that a journal makes out of an empty one.
    pub(crate) fn read(
        mode: &Mode,
        journal: &[u8],
        entries: usize,
        cell_bytes: usize,
        delay: u64,
    ) -> Result<(Self, JournalEnd), Refusal> {
        let mut n = Self::unread(entries, cell_bytes, delay)?;
        let end = raw::read_journal(mode.key(), journal, delay, &mut n.nursery, &mut n.entries, &mut n.waiting, &mut n.cells)?;
        Ok((n, end))
    }

    /// The nursery of a record and tables, where these hold a state; else they are refused with [`Refusal::Broken`]. Its delay is the record's.
    pub fn from_parts(parts: NurseryParts) -> Result<Self, Refusal> {
        let NurseryParts { nursery, entries, waiting, cells } = parts;
        let mut n = Self { nursery, entries, waiting, cells };
        // An empty delta is taken by every state and changes none.
        let none = DeltaItems::borrowed(0, 0, &[]);
        raw::apply_commit(&mut n.nursery, &mut n.entries, &mut n.waiting, &mut n.cells, &none)?;
        Ok(n)
    }

    /// Record and tables, for the caller to own.
    pub fn into_parts(self) -> NurseryParts {
        NurseryParts { nursery: self.nursery, entries: self.entries, waiting: self.waiting, cells: self.cells }
    }

    /// The record, word by word.
    pub fn nursery(&self) -> &[u64; sys::NURSERY] {
        &self.nursery
    }

    /// The table of entries, word by word.
    pub fn entries(&self) -> &[u64] {
        &self.entries
    }

    /// The waiting table, word by word.
    pub fn waiting(&self) -> &[u64] {
        &self.waiting
    }

    /// The cells.
    pub fn cells(&self) -> &[u8] {
        &self.cells
    }

    /// How many rounds an entry waits before it is due for promotion: what the nursery was made or read in with.
    pub fn delay(&self) -> u64 {
        self.nursery[3]
    }

    /// How many entries there are.
    pub fn len(&self) -> usize {
        size(self.nursery[0])
    }

    /// Whether there is none.
    pub fn is_empty(&self) -> bool {
        self.len() == 0
    }

    /// How many of them wait for promotion.
    pub fn waiting_len(&self) -> usize {
        size(self.nursery[1])
    }

    /// How many bytes their cells have.
    pub fn cell_bytes(&self) -> usize {
        size(self.nursery[2])
    }

    /// A delta: all of it or nothing.
    pub fn apply_commit(&mut self, delta: &NurseryDelta) -> Result<(), Refusal> {
        self.apply_items(&delta.to_items()?)
    }

    /// A delta that is at hand as bytes. Items that aren't what the numbers state are [`Refusal::Broken`].
    pub fn apply_items(&mut self, items: &DeltaItems<'_>) -> Result<(), Refusal> {
        // SAFETY: held, see above.
        Refusal::of(unsafe {
            sys::selvaigo_apply_commit_held(
                &mut self.nursery,
                self.entries.as_mut_ptr(),
                self.entries.len(),
                self.waiting.as_mut_ptr(),
                self.waiting.len(),
                self.cells.as_mut_ptr(),
                self.cells.len(),
                items.wide.into(),
                items.inserts,
                items.removes,
                items.bytes.as_ptr(),
                items.bytes.len(),
            )
        })
    }

    // The waiting rows that are due stand at the front.
    fn due(&self, round: u32) -> usize {
        let rows = self.waiting.as_chunks::<5>().0;
        match u64::from(round).checked_sub(self.delay()) {
            Some(last) => rows[..self.waiting_len()].partition_point(|row| row[0] <= last),
            None => 0,
        }
    }

    /// Hands out the waiting cells that are due at a round, by born round, then arrival; they stay as entries and wait no longer.
    /// An entry that isn't removed is handed out once: by the first drain after its insert at a round of at least its born round plus
    /// [`CellNursery::delay`].
    pub fn drain_promotable(&mut self, round: u32, mut f: impl FnMut(HashBytes, Idx, &[u8])) {
        let due = self.due(round);
        let mut out = vec![0; 42 * due + self.cell_bytes().min(due.saturating_mul(65_535))];
        // No two waiting rows name the same entry.
        let len = self.drain_promotable_into(round, &mut out).expect("an output for all that is due");
        PromotedCell::all(&out[..len]).for_each(|cell| f(cell.hash, cell.idx, cell.data));
    }

    /// The same into the front of `out`, for [`PromotedCell::all`] to read: its length. Only an output that is too short is refused, and then all wait on.
    pub fn drain_promotable_into(&mut self, round: u32, out: &mut [u8]) -> Result<usize, Refusal> {
        let mut len = [0];
        // SAFETY: held, see above.
        Refusal::of(unsafe {
            sys::selvaigo_drain_promotable_held(
                &mut self.nursery,
                self.entries.as_ptr(),
                self.entries.len(),
                self.waiting.as_mut_ptr(),
                self.waiting.len(),
                self.cells.as_ptr(),
                self.cells.len(),
                round,
                out.as_mut_ptr(),
                out.len(),
                &mut len,
            )
        })?;
        Ok(size(len[0]))
    }

    /// The cell of a hash.
    pub fn get(&self, hash: &HashBytes) -> Option<&[u8]> {
        let mut found = [0; 3];
        // SAFETY: held, see above.
        taken(unsafe {
            sys::selvaigo_get_data_held(
                &self.nursery,
                self.entries.as_ptr(),
                self.entries.len(),
                self.cells.as_ptr(),
                self.cells.len(),
                &hash.0,
                &mut found,
            )
        });
        (found[0] != 0).then(|| &self.cells[size(found[1])..][..size(found[2])])
    }

    /// The index of a hash.
    pub fn get_idx(&self, hash: &HashBytes) -> Option<Idx> {
        let mut found = [0; 2];
        // SAFETY: held, see above.
        taken(unsafe {
            sys::selvaigo_get_idx_held(&self.nursery, self.entries.as_ptr(), self.entries.len(), &hash.0, &mut found)
        });
        (found[0] != 0).then_some(Idx::new(found[1]))
    }

    /// The index and the cell of a hash.
    pub fn get_data(&self, hash: &HashBytes) -> Option<(Idx, &[u8])> {
        self.get_idx(hash).zip(self.get(hash))
    }

    /// The entries, by ascending hash.
    pub fn snapshot_entries(&self) -> Vec<NurseryEntryRecord> {
        let mut out = vec![0; self.snapshot_entries_len()];
        let len = self.snapshot_entries_into(&mut out).expect("an output of the stated length");
        let items = DeltaItems::borrowed(self.nursery[0], 0, &out[..len]);
        items.to_delta().expect("as many entries as the record states").inserts
    }

    /// How many bytes the listing takes.
    pub fn snapshot_entries_len(&self) -> usize {
        46 * self.len() + self.cell_bytes()
    }

    /// The entries into the front of `out`, each as a delta's insert that isn't wide: the length. Only an output that is too short is
    /// refused.
    pub fn snapshot_entries_into(&self, out: &mut [u8]) -> Result<usize, Refusal> {
        let mut len = [0];
        // SAFETY: held, see above.
        Refusal::of(unsafe {
            sys::selvaigo_snapshot_entries_held(
                &self.nursery,
                self.entries.as_ptr(),
                self.entries.len(),
                self.cells.as_ptr(),
                self.cells.len(),
                out.as_mut_ptr(),
                out.len(),
                &mut len,
            )
        })?;
        Ok(size(len[0]))
    }
}

impl fmt::Debug for CellNursery {
    fn fmt(&self, f: &mut fmt::Formatter<'_>) -> fmt::Result {
        f.debug_struct("CellNursery")
            .field("entries", &self.len())
            .field("waiting", &self.waiting_len())
            .field("cell_bytes", &self.cell_bytes())
            .finish_non_exhaustive()
    }
}
