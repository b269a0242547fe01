//! The port's side: the crate `selvaigo` over tables of the run's sizes. A call that changes nothing is made in both forms, held and
//! checked, which have to agree; the others are made in the form that the run names. A checked call's tables are judged again after it.
//! Records and journals are without a key, as the original's are.
use selvaigo::{
    CellNursery, CounterTransition, Counters, DeltaItems, Dropped, HashBytes, Idx, Mode, NextIdx, NurseryParts, PromotedCell,
    Refusal, ShrinkSettings, raw, sys,
};

use crate::definition::{self, Drained, Ended, Refused, items};
use crate::steps::{Delta, Hash, Sizes};

/// The definition's settings.
const DELAY: u64 = definition::DELAY as u64;
const SHRINK: ShrinkSettings =
    ShrinkSettings { base: definition::SHRINK_BASE, max: definition::SHRINK_MAX, good_save: definition::GOOD_SAVE };

pub struct Port {
    held: bool,
    pub counters: Counters,
    pub nursery: CellNursery,
}

/// The five figures of a record.
pub type Stats = [u64; 5];

pub struct Decoded<'a> {
    pub id: u64,
    pub hash: Hash,
    pub stats: Stats,
    pub items: &'a [u8],
}

fn number<T>(answer: Result<T, Refusal>) -> Refused<T> {
    answer.map_err(Refusal::number)
}

/// Both forms' answer.
fn agreed<T: PartialEq + std::fmt::Debug>(held: T, checked: T) -> T {
    assert_eq!(held, checked, "the port's held and checked forms differ");
    held
}

fn stats(s: selvaigo::RecordStats) -> Stats {
    [s.payload_bytes, s.metadata_bytes, s.cell_bytes, s.insert_ops, s.remove_ops]
}

fn lent(delta: &Delta) -> DeltaItems<'static> {
    let wide = delta.inserts.iter().any(|i| i.cell.len() > 65_535);
    DeltaItems {
        wide,
        inserts: delta.inserts.len() as u64,
        removes: delta.removes.len() as u64,
        bytes: items(delta, wide).into(),
    }
}

fn words(batch: &[[u64; 3]]) -> Vec<u64> {
    batch.iter().flatten().copied().collect()
}

/// Tables of any content, for calls that take such.
fn unread(sizes: &Sizes) -> NurseryParts {
    NurseryParts {
        nursery: [7; sys::NURSERY],
        entries: vec![7; sizes.entries].into(),
        waiting: vec![7; sizes.waiting].into(),
        cells: vec![7; sizes.cells].into(),
    }
}

impl Port {
    pub fn new(sizes: &Sizes) -> Self {
        let (mut state, mut counts) = ([7; sys::STATE], vec![7; sizes.counts]);
        raw::new(NextIdx::new(sizes.next), SHRINK, &mut state, &mut counts).unwrap();
        let counters = Counters::from_parts(state, counts.into()).unwrap();
        Port { held: sizes.held, counters, nursery: Self::empty(sizes) }
    }

    fn empty(sizes: &Sizes) -> CellNursery {
        let mut p = unread(sizes);
        raw::nursery_new(DELAY, &mut p.nursery, &mut p.entries, &mut p.waiting, &mut p.cells).unwrap();
        CellNursery::from_parts(p).unwrap()
    }

    /// A call over the record and the table of the counters, lent.
    fn lend<T>(&mut self, call: impl FnOnce(&mut [u64; sys::STATE], &mut [u64]) -> Result<T, Refusal>) -> Refused<T> {
        let none = Counters::new(NextIdx::new(0), 0, SHRINK).unwrap();
        let (mut state, mut counts) = std::mem::replace(&mut self.counters, none).into_parts();
        let answer = call(&mut state, &mut counts);
        self.counters = Counters::from_parts(state, counts).expect("a state after a call");
        number(answer)
    }

    fn lend_nursery<T>(&mut self, call: impl FnOnce(&mut NurseryParts) -> Result<T, Refusal>) -> Refused<T> {
        let none = CellNursery::new(0, 0, DELAY).unwrap();
        let mut parts = std::mem::replace(&mut self.nursery, none).into_parts();
        let answer = call(&mut parts);
        self.nursery = CellNursery::from_parts(parts).expect("a state after a call");
        number(answer)
    }

    pub fn new_counters(&mut self, next: u64) {
        self.lend(|state, counts| raw::new(NextIdx::new(next), SHRINK, state, counts)).unwrap();
    }

    pub fn alloc_idx(&mut self) -> Refused<u64> {
        number(self.counters.alloc_idx()).map(Idx::get)
    }

    pub fn apply_batch(&mut self, batch: &[[u64; 3]]) -> Refused<()> {
        if !self.held {
            return self.lend(|state, counts| raw::apply_batch(state, counts, &words(batch)));
        }
        let transition = |[idx, old, new]: &[u64; 3]| CounterTransition { idx: Idx::new(*idx), old_raw: *old, new_raw: *new };
        number(self.counters.apply_batch(&batch.iter().map(transition).collect::<Vec<_>>()))
    }

    pub fn get(&self, idx: u64) -> Refused<u64> {
        let (c, idx) = (&self.counters, Idx::new(idx));
        agreed(number(c.get(idx)), number(raw::get(c.state(), c.counts(), idx))).map(|count| count.get())
    }

    pub fn set_figures(&mut self, figures: &[u64; 10]) {
        self.lend(|state, _| {
            state[3..13].copy_from_slice(figures);
            Ok(())
        })
        .unwrap();
    }

    pub fn adjust_shrink_threshold(min: u64, saved: u64) -> u64 {
        selvaigo::adjust_shrink_threshold(min, saved, SHRINK)
    }

    pub fn shrink_if_needed(&mut self, saved: u64) -> [u64; 9] {
        let yes = if self.held {
            self.counters.shrink_if_needed(saved)
        } else {
            self.lend(|state, counts| raw::shrink_if_needed(state, counts, saved)).unwrap()
        };
        let mut all = [u64::from(yes.alive); 9];
        yes.small.iter().zip(&mut all[1..]).for_each(|(from, to)| *to = u64::from(*from));
        all
    }

    pub fn serialized_len(&self) -> usize {
        let c = &self.counters;
        agreed(c.serialized_len(), raw::serialized_len(c.state(), c.counts()).unwrap())
    }

    /// What is in the output before stays where the answer isn't.
    pub fn serialize(&self, out: &mut Vec<u8>) -> Refused<usize> {
        let c = &self.counters;
        let mut other = out.clone();
        let len = agreed(c.serialize_into(out), raw::serialize(c.state(), c.counts(), &mut other));
        assert!(*out == other, "the port's held and checked snapshots differ");
        number(len)
    }

    pub fn deserialize_trusted(&mut self, snapshot: &[u8]) -> Refused<()> {
        self.lend(|state, counts| {
            let before = (counts.len() <= 4096).then(|| (*state, counts.to_vec()));
            let answer = raw::deserialize_trusted(snapshot, SHRINK, state, counts);
            if let (Some((s, c)), Err(_)) = (before, &answer) {
                assert!(s == *state && c == counts, "a refused snapshot changes the port's tables");
            }
            answer
        })
    }

    /// The counters that are loaded into a table of any content, and the old total. A refusal leaves the words as they are, and beside it the total is 0.
    pub fn load_snapshot(&self, snapshot: &[u8]) -> Refused<(Counters, u64)> {
        let (mut state, mut counts) = ([7; sys::STATE], vec![7; self.counters.counts().len()]);
        let answer = raw::load_snapshot(snapshot, SHRINK, &mut state, &mut counts);
        if let Err(refusal) = answer {
            let zero = load_values(snapshot, &mut state, &mut counts) == (refusal.number(), [0]);
            assert!(zero, "the port's total beside a refused snapshot isn't 0");
            assert!(state == [7; sys::STATE] && counts.iter().all(|w| *w == 7), "a refused snapshot changes the port's tables");
        }
        let old_total = number(answer)?;
        Ok((Counters::from_parts(state, counts.into()).expect("a state after loading"), old_total))
    }

    pub fn new_nursery(&mut self, sizes: &Sizes) {
        self.nursery = Self::empty(sizes);
    }

    pub fn apply_commit(&mut self, delta: &Delta) -> Refused<()> {
        let items = lent(delta);
        if self.held {
            return number(self.nursery.apply_items(&items));
        }
        self.lend_nursery(|p| raw::apply_commit(&mut p.nursery, &mut p.entries, &mut p.waiting, &mut p.cells, &items))
    }

    pub fn drain_promotable(&mut self, round: u32, out: &mut [u8]) -> Refused<usize> {
        if self.held {
            return number(self.nursery.drain_promotable_into(round, out));
        }
        self.lend_nursery(|p| raw::drain_promotable(&mut p.nursery, &p.entries, &mut p.waiting, &p.cells, round, out))
    }

    pub fn drained(out: &[u8]) -> Drained {
        PromotedCell::all(out).map(|cell| (cell.hash.0, cell.idx.get(), cell.data.to_vec())).collect()
    }

    pub fn lookup(&self, hash: &Hash) -> Option<(u64, Vec<u8>)> {
        let (n, hash) = (&self.nursery, HashBytes(*hash));
        let idx = agreed(n.get_idx(&hash), raw::get_idx(n.nursery(), n.entries(), &hash).unwrap());
        let place = raw::get_data(n.nursery(), n.entries(), n.cells(), &hash).unwrap();
        let cell = agreed(n.get(&hash), place.map(|p| &n.cells()[p]));
        assert_eq!(n.get_data(&hash), idx.zip(cell));
        idx.zip(cell).map(|(idx, cell)| (idx.get(), cell.to_vec()))
    }

    pub fn snapshot_entries(&self, out: &mut Vec<u8>) -> Refused<usize> {
        let n = &self.nursery;
        let mut other = out.clone();
        let len = agreed(n.snapshot_entries_into(out), raw::snapshot_entries(n.nursery(), n.entries(), n.cells(), &mut other));
        assert!(*out == other, "the port's held and checked listings differ");
        number(len)
    }

    pub fn encode_record(id: u64, delta: &Delta, out: &mut [u8]) -> Refused<(usize, Stats)> {
        number(selvaigo::encode_items(&Mode::Unkeyed, id, &lent(delta), out)).map(|(len, s)| (len, stats(s)))
    }

    pub fn decode_record(bytes: &[u8]) -> Refused<Decoded<'_>> {
        let d = number(selvaigo::decode_record(&Mode::Unkeyed, bytes))?;
        let std::borrow::Cow::Borrowed(items) = d.items.bytes else { panic!("items that aren't in the record's bytes") };
        Ok(Decoded { id: d.id, hash: d.hash, stats: stats(d.stats), items })
    }

    pub fn scan_journal(journal: &[u8]) -> Ended {
        let scan = selvaigo::scan_journal(&Mode::Unkeyed, journal);
        (scan.records as usize, scan.place, scan.refusal.map_or(0, Refusal::number))
    }

    /// The damaged record for which new tables are refused; where it stands, as the scan gives it.
    pub fn damaged_record(journal: &[u8]) -> Option<Ended> {
        let read = selvaigo::read_journal(&Mode::Unkeyed, journal, 0, 0, DELAY);
        let damaged = read.err()?.damaged().expect("a delay in its range");
        assert_eq!(damaged.number(), 21);
        Some((damaged.records as usize, damaged.place, damaged.refusal.number()))
    }

    /// The new journal and the list of what was dropped into the two outputs, in both forms: the lengths.
    pub fn convert_journal(journal: &[u8], out: &mut [u8], dropped: &mut [u8]) -> Refused<[usize; 2]> {
        let lengths = number(raw::convert_journal(journal, out, dropped));
        if let Ok([len, listed]) = lengths {
            let owned = selvaigo::convert_journal(journal);
            assert!(owned.journal == out[..len], "the port's two new journals differ");
            assert_eq!(owned.dropped, Dropped::all(&dropped[..listed]).collect::<Vec<_>>());
        }
        lengths
    }

    /// How the journal was read, and the listing of what it made. That is the nursery from here on, if it is to be kept; then the tables that are lent are those
    /// in use, else they have any content. A refusal leaves them as they are.
    pub fn read_journal(&mut self, journal: &[u8], sizes: &Sizes, keep: bool) -> Refused<(Ended, Vec<u8>)> {
        let mut p = if keep { self.nursery.clone().into_parts() } else { unread(sizes) };
        let before = p.clone();
        let answer = raw::read_journal(None, journal, DELAY, &mut p.nursery, &mut p.entries, &mut p.waiting, &mut p.cells);
        if let Err(refusal) = answer {
            let zeros = read_values(journal, &mut p) == (refusal.number(), [0; 3]);
            assert!(zeros, "the port's values beside a refused journal aren't zeros");
            assert!(p == before, "a refused journal changes the port's tables");
        }
        let end = number(answer)?;
        let read = CellNursery::from_parts(p).expect("a state after a journal");
        let mut out = vec![0; read.snapshot_entries_len()];
        let len = read.snapshot_entries_into(&mut out).unwrap();
        assert_eq!(len, out.len());
        if keep {
            self.nursery = read;
        }
        Ok(((end.applied as usize, end.place, end.refusal.map_or(0, Refusal::number)), out))
    }
}

/// The answer to a snapshot that is loaded, and the total beside it, as they come.
fn load_values(snapshot: &[u8], state: &mut [u64; sys::STATE], counts: &mut [u64]) -> (u8, [u64; 1]) {
    let mut old_total = [7];
    // SAFETY: slices and arrays, none of which overlaps another.
    let answer = unsafe {
        sys::selvaigo_load_snapshot(
            snapshot.as_ptr(),
            snapshot.len(),
            SHRINK.base,
            SHRINK.max,
            SHRINK.good_save,
            state,
            counts.as_mut_ptr(),
            counts.len(),
            &mut old_total,
        )
    };
    (answer, old_total)
}

/// The answer to a journal, and the values beside it, as they come.
fn read_values(journal: &[u8], p: &mut NurseryParts) -> (u8, [u64; 3]) {
    let mut read = [7; 3];
    // SAFETY: slices and arrays, none of which overlaps another.
    let answer = unsafe {
        sys::selvaigo_read_journal(
            0,
            [].as_ptr(),
            0,
            journal.as_ptr(),
            journal.len(),
            DELAY,
            &mut p.nursery,
            p.entries.as_mut_ptr(),
            p.entries.len(),
            p.waiting.as_mut_ptr(),
            p.waiting.len(),
            p.cells.as_mut_ptr(),
            p.cells.len(),
            &mut read,
        )
    };
    (answer, read)
}
