//! The original's side: its calls, with answers in this program's terms.
use std::num::NonZeroUsize;
use std::sync::Arc;

use bytes::Bytes;
use rayon::ThreadPool;
use tycho_types::cell::HashBytes;

use super::cell_nursery::inside as nursery_inside;
use super::cell_nursery::{CellNursery, NurseryDelta, NurseryEntryRecord};
use super::counters::inside;
use super::counters::{Counters, Idx, NextIdx};
use super::nursery_persistence::format;
use crate::steps::{Delta, Hash, Insert};

pub struct Original {
    pool: Arc<ThreadPool>,
    stripes: NonZeroUsize,
    counters: Counters,
    nursery: CellNursery,
    buffer: Vec<u8>,
}

/// Next index, live total, stored counts, the ten figures of maintenance.
pub type Totals = [u64; 13];

/// The five figures of a record.
pub type Stats = [u64; 5];

pub struct Decoded {
    pub id: u64,
    pub hash: Hash,
    pub stats: Stats,
    pub delta: Delta,
    pub unread: usize,
}

fn theirs(delta: &Delta) -> NurseryDelta {
    NurseryDelta {
        inserts: delta
            .inserts
            .iter()
            .map(|i| NurseryEntryRecord {
                hash: HashBytes(i.hash),
                idx: Idx::new(i.idx),
                born_round: i.born_round,
                data: Bytes::copy_from_slice(&i.cell),
            })
            .collect(),
        removes: delta.removes.iter().map(|h| HashBytes(*h)).collect(),
    }
}

fn ours(e: &NurseryEntryRecord) -> Insert {
    Insert { hash: e.hash.0, idx: e.idx.get(), born_round: e.born_round, cell: e.data.to_vec() }
}

fn listing(nursery: &CellNursery) -> Vec<Insert> {
    let mut all: Vec<Insert> = nursery.snapshot_entries().iter().map(ours).collect();
    all.sort_by_key(|e| e.hash);
    all
}

fn stats(s: &format::RecordStats) -> Stats {
    [s.payload_bytes, s.metadata_bytes, s.cell_bytes, s.insert_ops, s.remove_ops]
}

fn totals(c: &Counters) -> Totals {
    let mut all = [0; 13];
    all[..3].copy_from_slice(&[c.next_idx.get(), inside::live(c), inside::stored(c)]);
    all[3..].copy_from_slice(&inside::figures(c));
    all
}

fn apply_batch(c: &mut Counters, transitions: &[[u64; 3]]) {
    let mut batch = c.begin();
    batch.reserve(transitions.len());
    for [idx, old, new] in transitions {
        batch.update_raw(Idx::new(*idx), *old, *new);
    }
    batch.apply();
}

impl Original {
    pub fn new(next: u64, stripes: usize, pool: Arc<ThreadPool>) -> Self {
        let stripes = NonZeroUsize::new(stripes).unwrap();
        Original {
            counters: Counters::new(NextIdx::new(next), pool.clone()),
            nursery: CellNursery::new(stripes, pool.clone()),
            pool,
            stripes,
            buffer: Vec::new(),
        }
    }

    pub fn new_counters(&mut self, next: u64) {
        self.counters = Counters::new(NextIdx::new(next), self.pool.clone());
    }

    pub fn totals(&self) -> Totals {
        totals(&self.counters)
    }

    pub fn alloc_idx(&mut self) -> u64 {
        self.counters.alloc_idx().get()
    }

    pub fn apply_batch(&mut self, transitions: &[[u64; 3]]) {
        apply_batch(&mut self.counters, transitions);
    }

    /// What a batch that the port refuses with 25 leaves, applied to a copy: the totals, and the counts at its indices.
    pub fn with_few_cells(&self, transitions: &[[u64; 3]]) -> (Totals, Vec<u64>) {
        let mut c = self.counters.clone();
        apply_batch(&mut c, transitions);
        (totals(&c), transitions.iter().map(|t| c.get(Idx::new(t[0]))).collect())
    }

    pub fn get(&self, idx: u64) -> u64 {
        self.counters.get(Idx::new(idx))
    }

    pub fn set_figures(&mut self, figures: &[u64; 10]) {
        inside::set_figures(&mut self.counters, figures);
    }

    pub fn shrink_if_needed(&mut self, saved: u64) {
        inside::shrink(&mut self.counters, saved);
    }

    pub fn should_shrink(alive: u64, removed: u64, min: u64) -> bool {
        inside::should_shrink(alive, removed, min)
    }

    pub fn adjust_shrink_threshold(min: u64, saved: u64) -> u64 {
        inside::adjust_shrink_threshold(min, saved)
    }

    /// The snapshot, and how many of its entries are large ones.
    pub fn serialize(&mut self) -> (Vec<u8>, usize) {
        (self.counters.serialize(), inside::large(&self.counters))
    }

    /// Its counters are the snapshot's, or what it says against it.
    pub fn deserialize_trusted(&mut self, snapshot: &[u8]) -> Result<(), String> {
        match Counters::deserialize_trusted(snapshot, self.pool.clone()) {
            Ok(c) => self.counters = c,
            Err(e) => return Err(e.to_string()),
        }
        Ok(())
    }

    /// Whether it takes a snapshot that document 01 refuses.
    pub fn takes(&self, snapshot: &[u8]) -> bool {
        Counters::deserialize_trusted(snapshot, self.pool.clone()).is_ok()
    }

    pub fn new_nursery(&mut self) {
        self.nursery = CellNursery::new(self.stripes, self.pool.clone());
    }

    pub fn apply_commit(&mut self, delta: &Delta) {
        self.nursery.apply_commit(theirs(delta));
    }

    /// Entries and their cell bytes.
    pub fn nursery_totals(&self) -> [u64; 2] {
        [nursery_inside::entries(&self.nursery) as u64, nursery_inside::cell_bytes(&self.nursery)]
    }

    pub fn drain_promotable(&mut self, round: u32) -> Vec<(Hash, u64, Vec<u8>)> {
        let mut all = Vec::new();
        self.nursery.drain_promotable(round, |hash, idx, cell| all.push((hash.0, idx.get(), cell.to_vec())));
        all
    }

    /// The index and the cell of a hash, by each of the three ways to ask.
    pub fn lookup(&self, hash: &Hash) -> Option<(u64, Vec<u8>)> {
        let hash = HashBytes(*hash);
        let guard = self.nursery.read();
        let found = guard.get_data(&hash).map(|(idx, cell)| (idx.get(), cell.to_vec()));
        assert_eq!(guard.get_idx(&hash).map(|i| i.get()), found.as_ref().map(|f| f.0));
        assert_eq!(self.nursery.get(&hash).map(|b| b.to_vec()), found.as_ref().map(|f| f.1.clone()));
        found
    }

    /// By ascending hash.
    pub fn snapshot_entries(&self) -> Vec<Insert> {
        listing(&self.nursery)
    }

    /// The first records of a journal, one by one, into an empty nursery: its listing, and the place after them. It is the
    /// nursery from here on, if it is to be kept.
    pub fn read_records(&mut self, journal: &[u8], records: usize, keep: bool) -> Result<(Vec<Insert>, usize), String> {
        let nursery = CellNursery::new(self.stripes, self.pool.clone());
        let mut rest = journal;
        for _ in 0..records {
            let record = format::decode_record(&mut rest, &mut self.buffer).map_err(|e| format!("{e:#}"))?;
            nursery.apply_commit(record.delta);
        }
        let entries = listing(&nursery);
        if keep {
            self.nursery = nursery;
        }
        Ok((entries, journal.len() - rest.len()))
    }

    /// The first records of a journal, decoded one by one and not applied: the place after them.
    pub fn take_records(&mut self, journal: &[u8], records: usize) -> Result<usize, String> {
        let mut rest = journal;
        for _ in 0..records {
            format::decode_record(&mut rest, &mut self.buffer).map_err(|e| format!("{e:#}"))?;
        }
        Ok(journal.len() - rest.len())
    }

    pub fn encode_record(id: u64, delta: &Delta) -> (Vec<u8>, Stats) {
        let record = format::encode_record(id, &theirs(delta));
        assert_eq!((record.id(), &record.hash()[..]), (id, &record.bytes()[..32]));
        (record.bytes().to_vec(), stats(record.stats()))
    }

    pub fn decode_record(&mut self, bytes: &[u8]) -> Result<Decoded, String> {
        let mut rest = bytes;
        let record = format::decode_record(&mut rest, &mut self.buffer).map_err(|e| format!("{e:#}"))?;
        Ok(Decoded {
            id: record.id,
            hash: record.hash,
            stats: stats(&record.stats),
            delta: Delta {
                inserts: record.delta.inserts.iter().map(ours).collect(),
                removes: record.delta.removes.iter().map(|h| h.0).collect(),
            },
            unread: rest.len(),
        })
    }

    pub fn hash(bytes: &[u8]) -> Hash {
        *blake3::hash(bytes).as_bytes()
    }

    /// Of its library alone: the original hashes nothing under a key.
    pub fn keyed_hash(key: &Hash, bytes: &[u8]) -> Hash {
        *blake3::keyed_hash(key, bytes).as_bytes()
    }
}
