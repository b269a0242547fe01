//! Never more stored counts than cells (document 02, P10): the worked lines, the refusal's place among the others, broken records, snapshots that are
//! loaded once, and batches and snapshots made up at random, beside a plain model.
use std::collections::{BTreeMap, BTreeSet};

use selvaigo::{
    CounterTransition, Counters, Idx, Mode, NextIdx, NodeBox, RefCount, Refusal, RestoreError, Room, Settings, ShrinkSettings,
    raw, sys,
};

const NEXT: u64 = 24;
const SETTINGS: ShrinkSettings = ShrinkSettings::STANDARD;

fn fresh(next: u64, room: usize) -> Counters {
    Counters::new(NextIdx::new(next), room, SETTINGS).unwrap()
}

fn change(idx: u64, old_raw: u64, new_raw: u64) -> CounterTransition {
    CounterTransition { idx: Idx::new(idx), old_raw, new_raw }
}

// ---- batches, in each of the three forms

// The record and the table after a batch, which every form gives; a refusal leaves them as they were.
fn batch(c: &Counters, batch: &[CounterTransition]) -> Result<Counters, Refusal> {
    let words: Vec<u64> = batch.iter().flat_map(|t| [t.idx.get(), t.old_raw, t.new_raw]).collect();
    let (mut state, mut counts) = c.clone().into_parts();
    let answer = raw::apply_batch(&mut state, &mut counts, &words);
    let (mut held, mut gathered) = (c.clone(), c.clone());
    assert_eq!(held.apply_batch(batch), answer);
    let mut one_by_one = gathered.begin();
    batch.iter().for_each(|t| one_by_one.update_raw(t.idx, t.old_raw, t.new_raw));
    assert_eq!(one_by_one.apply(), answer);
    let after = (&state, &counts[..]);
    assert!((held.state(), held.counts()) == after && (gathered.state(), gathered.counts()) == after, "the forms differ");
    assert!(answer.is_ok() || (c.state(), c.counts()) == after, "a refused batch changes something");
    answer.map(|()| held)
}

// The number of a batch on counters at a next index with so much room, and the live total after it.
fn answered(next: u64, room: usize, changes: &[CounterTransition]) -> (u8, u64) {
    match batch(&fresh(next, room), changes) {
        Ok(c) => (0, c.live_cells()),
        Err(refusal) => (refusal.number(), 0),
    }
}

// Counters at next 4 with live total 1 and count 5 at index 0.
fn one_cell() -> Counters {
    batch(&fresh(4, 2), &[change(0, 0, 5)]).unwrap()
}

#[test]
fn worked_batches() {
    assert_eq!(answered(2, 2, &[change(0, 1, 5)]), (25, 0));
    assert_eq!(answered(2, 2, &[change(0, 0, 5)]), (0, 1));
    assert_eq!(answered(2, 2, &[change(0, 1, 5), change(1, 0, 1)]), (0, 1));
    assert_eq!(answered(2, 0, &[change(0, 1, 5)]), (6, 0));
    assert_eq!(answered(2, 0, &[change(0, 1, 5), change(1, 0, 1)]), (6, 0));
    assert_eq!(answered(2, 0, &[change(0, 1, 5), change(1, 1, 0)]), (4, 0));
    assert_eq!(batch(&one_cell(), &[change(1, 1, 0)]).unwrap_err(), Refusal::FewCells);
}

#[test]
fn a_box_allocates_and_is_refused_once() {
    let mut c = fresh(0, 1_024);
    assert_eq!((c.alloc_idx(), c.live_cells()), (Ok(Idx::new(0)), 0));
    assert_eq!(c.apply_batch(&[change(0, 1, 5)]), Err(Refusal::FewCells));
    assert_eq!((c.next_idx().get(), c.live_cells()), (1, 0));
    assert_eq!(c.apply_batch(&[change(0, 0, 5)]), Ok(()));
    assert_eq!((c.next_idx().get(), c.live_cells()), (1, 1));
}

#[test]
fn the_totals_after_the_whole_batch_count() {
    // Whatever the order of its transitions.
    assert_eq!(answered(2, 1, &[change(1, 0, 1), change(0, 1, 5)]), (0, 1));
    assert_eq!(answered(3, 2, &[change(0, 1, 5), change(1, 1, 6), change(2, 0, 1)]), (25, 0));
    assert_eq!(answered(4, 2, &[change(0, 1, 5), change(1, 1, 6), change(2, 0, 1), change(3, 0, 1)]), (0, 2));
    // Deaths are taken off, and counts that fall.
    assert_eq!(answered(4, 2, &[change(0, 0, 5), change(1, 0, 1), change(2, 1, 0)]), (0, 1));
    assert_eq!(answered(4, 2, &[change(0, 0, 5), change(2, 1, 0)]), (25, 0));
    let live = |changes: &[CounterTransition]| batch(&one_cell(), changes).map(|c| (c.live_cells(), c.stored()));
    assert_eq!(live(&[change(0, 5, 0), change(1, 1, 7)]), Err(Refusal::FewCells));
    assert_eq!(live(&[change(0, 5, 0), change(1, 0, 7)]), Ok((1, 1)));
    assert_eq!(live(&[change(0, 5, 0)]), Ok((0, 0)));
    // Which cells were born doesn't count, only how many.
    assert_eq!(live(&[change(0, 5, 1), change(1, 1, 7)]), Ok((1, 1)));
    assert_eq!(live(&[change(0, 5, 300), change(1, 1, 7)]), Err(Refusal::FewCells));
    // As many counts as cells are right; so is a next index far above.
    assert_eq!(live(&[change(1, 0, 7)]), Ok((2, 2)));
    assert_eq!(answered(u64::MAX, 1, &[change(0, 1, 5)]), (25, 0));
    // What is dropped bears no cell.
    assert_eq!(answered(4, 2, &[change(0, 1, 5), change(1, 0, 0), change(2, 7, 7)]), (25, 0));
}

#[test]
fn last_of_a_batch() {
    // Alone it is 25; with another fault beside it, in front or behind, it is that one's number.
    let few = change(1, 1, 5);
    let number = |changes: &[CounterTransition]| batch(&one_cell(), changes).unwrap_err().number();
    assert_eq!(number(&[few]), 25);
    let others = [
        (vec![change(4, 0, 1)], 2),
        (vec![change(2, 0, 1), change(2, 0, 1)], 3),
        (vec![change(0, 4, 5)], 5),
        (vec![change(2, 2, 5)], 5),
        (vec![change(2, 1, 0), change(3, 1, 0)], 4),
        (vec![change(2, 1, 5)], 6),
    ];
    for (other, wanted) in others {
        assert_eq!(number(&[&[few], &other[..]].concat()), wanted);
        assert_eq!(number(&[&other[..], &[few]].concat()), wanted);
    }
    // The live total at its upper end.
    let (mut state, counts) = one_cell().into_parts();
    state[1] = u64::MAX;
    let many = Counters::from_parts(state, counts).unwrap();
    assert_eq!(batch(&many, &[change(1, 0, 5)]).unwrap_err(), Refusal::OffTotal);
    assert_eq!(batch(&many, &[change(1, 1, 5)]).unwrap().live_cells(), u64::MAX);
}

#[test]
fn a_record_with_too_few_cells_is_no_state() {
    let (good, mut counts) = batch(&one_cell(), &[change(1, 0, 300)]).unwrap().into_parts();
    assert_eq!((good[1], good[2]), (2, 2));
    let before = counts.clone();
    for live in [0, 1] {
        let mut state = good;
        state[1] = live;
        let bad = state;
        for idx in [0, 3, 4] {
            assert_eq!(raw::get(&state, &counts, Idx::new(idx)), Err(Refusal::Broken));
        }
        // Also a batch that would bring the cells, one that would be refused otherwise, and an empty one.
        for changes in [&[][..], &[2, 0, 1, 3, 0, 1], &[4, 0, 1], &[0, 5, 0]] {
            assert_eq!(raw::apply_batch(&mut state, &mut counts, changes), Err(Refusal::Broken));
        }
        assert_eq!(raw::shrink_if_needed(&mut state, &counts, 0), Err(Refusal::Broken));
        assert_eq!(raw::serialized_len(&state, &counts), Err(Refusal::Broken));
        let mut out = [7; 999];
        for len in [0, 999] {
            assert_eq!(raw::serialize(&state, &counts, &mut out[..len]), Err(Refusal::Broken));
        }
        assert_eq!(Counters::from_parts(state, counts.clone()).unwrap_err(), Refusal::Broken);
        assert!(state == bad && counts == before && out == [7; 999]);
        // Allocation is lent no table, and checks nothing.
        assert_eq!(raw::alloc_idx(&mut state), Ok(Idx::new(4)));
        assert_eq!((state[0], &state[1..]), (5, &bad[1..]));
    }
    assert!(Counters::from_parts(good, counts).is_ok());
}

// ---- snapshots

// A set with its length in front: nothing, or an array of its members.
fn set(members: &[u16]) -> Vec<u8> {
    if members.is_empty() {
        return [vec![8], vec![0; 15]].concat();
    }
    let mut payload = vec![1, 0, 0, 0, 0, 0, 0, 0, 0, 0, 0, 0, 0x3a, 0x30, 0, 0, 1, 0, 0, 0, 0, 0];
    payload.extend((members.len() as u16 - 1).to_le_bytes());
    payload.extend(16_u32.to_le_bytes());
    payload.extend(members.iter().flat_map(|m| m.to_le_bytes()));
    [&(payload.len() as u64).to_le_bytes()[..], &payload].concat()
}

// A snapshot of that next index, live total, small counts by ascending index, and large entries as they stand there.
fn snapshot(next: u64, live: u64, small: &[(u16, u64)], large: &[(u64, u64)]) -> Vec<u8> {
    let mut bytes = vec![1];
    bytes.extend([next, live].iter().flat_map(|n| n.to_le_bytes()));
    for bit in 0..8 {
        let members: Vec<u16> = small.iter().filter(|(_, count)| (count - 1) >> bit & 1 == 1).map(|(idx, _)| *idx).collect();
        bytes.extend(set(&members));
    }
    bytes.extend(large.iter().flat_map(|(idx, count)| [*idx, *count]).flat_map(u64::to_le_bytes));
    bytes
}

// A record and a table of so many words after a call that reads a snapshot into them, over words of another content.
fn into_words<T>(
    len: usize,
    call: impl FnOnce(&mut [u64; sys::STATE], &mut [u64]) -> Result<T, Refusal>,
) -> Result<(T, [u64; sys::STATE], Vec<u64>), Refusal> {
    let (mut state, mut counts) = ([9; sys::STATE], vec![9; len]);
    let answer = call(&mut state, &mut counts);
    assert!(answer.is_ok() || state == [9; sys::STATE] && counts == vec![9; len], "a refused reading changes something");
    answer.map(|value| (value, state, counts))
}

fn read(bytes: &[u8], len: usize) -> Result<([u64; sys::STATE], Vec<u64>), Refusal> {
    let answer = into_words(len, |state, counts| raw::deserialize_trusted(bytes, SETTINGS, state, counts));
    let owned = Counters::deserialize_trusted(bytes, len / 2, SETTINGS).map(Counters::into_parts);
    assert_eq!(owned.as_ref().err(), answer.as_ref().err());
    if let (Ok((state, counts)), Ok((_, s, c))) = (owned, &answer) {
        assert!(state == *s && counts[..] == c[..len / 2 * 2], "the two forms differ");
    }
    answer.map(|(_, state, counts)| (state, counts))
}

// What is loaded into so many words: the old total, the record, the table. A refusal has the old total 0 beside it.
fn load(bytes: &[u8], len: usize) -> Result<(u64, [u64; sys::STATE], Vec<u64>), Refusal> {
    let answer = into_words(len, |state, counts| raw::load_snapshot(bytes, SETTINGS, state, counts));
    let owned = Counters::load_snapshot(bytes, len / 2, SETTINGS).map(|loaded| (loaded.old_total, loaded.counters.into_parts()));
    assert_eq!(owned.as_ref().err(), answer.as_ref().err());
    if let (Ok((total, (state, counts))), Ok((t, s, c))) = (owned, &answer) {
        assert!(total == *t && state == *s && counts[..] == c[..len / 2 * 2], "the two forms differ");
        Counters::from_parts(*s, c.clone().into()).expect("a state after loading");
    }
    let (mut state, mut counts, mut old_total) = ([9; sys::STATE], vec![9; len], [9]);
    let ShrinkSettings { base, max, good_save } = SETTINGS;
    // SAFETY: slices and arrays, none of which overlaps another.
    let number = unsafe {
        sys::selvaigo_load_snapshot(
            bytes.as_ptr(),
            bytes.len(),
            base,
            max,
            good_save,
            &mut state,
            counts.as_mut_ptr(),
            len,
            &mut old_total,
        )
    };
    let wanted = answer.as_ref().map_or_else(|refusal| (refusal.number(), 0), |(total, ..)| (0, *total));
    assert_eq!((number, old_total[0]), wanted);
    answer
}

fn number<T>(answer: Result<T, Refusal>) -> u8 {
    answer.map_or_else(Refusal::number, |_| 0)
}

#[test]
fn worked_snapshots() {
    let old = snapshot(2, 0, &[(0, 5)], &[]);
    assert_eq!((number(read(&old, 3)), number(read(&old, 1))), (25, 6));
    let (old_total, state, table) = load(&old, 3).unwrap();
    assert_eq!((state[0], state[1], state[2], old_total), (2, 1, 1, 0));
    assert_eq!(table, [0, 5, 0]);
    assert_eq!(number(load(&old, 1)), 6);
    let kept = snapshot(2, 7, &[(0, 5)], &[]);
    let (old_total, state, table) = load(&kept, 3).unwrap();
    assert_eq!((state[1], old_total), (7, 7));
    assert_eq!((state, table), read(&kept, 3).unwrap());
}

#[test]
fn last_of_a_snapshot() {
    let small = [(0, 5), (1, 2)];
    let few = |next, large: &[(u64, u64)]| snapshot(next, 1, &small, large);
    let old = few(4, &[(3, 300)]);
    assert_eq!((number(read(&old, 6)), number(load(&old, 6))), (25, 0));
    let mut other_version = old.clone();
    other_version[0] = 2;
    // A set that states a bucket and has none.
    let mut bad_set = old.clone();
    bad_set[17 + 8] = 2;
    let refused: [(&[u8], usize, u8); 11] = [
        (&[], 6, 8),
        (&other_version, 6, 7),
        (&other_version[..1], 6, 7),
        (&old[..16], 6, 8),
        (&old[..old.len() - 17], 6, 8),
        (&bad_set, 6, 9),
        (&old[..old.len() - 1], 6, 10),
        (&few(4, &[(3, 256)]), 6, 10),
        (&few(4, &[(1, 300)]), 6, 11),
        (&few(3, &[(3, 300)]), 6, 11),
        (&old, 5, 6),
    ];
    for (bytes, len, wanted) in refused {
        assert_eq!((number(read(bytes, len)), number(load(bytes, len))), (wanted, wanted));
    }
    // Two faults: the earlier one, and never 25.
    assert_eq!((number(read(&few(3, &[(3, 300)]), 0)), number(load(&few(3, &[(3, 300)]), 0))), (11, 11));
    assert_eq!((number(read(&few(1, &[(9, 256)]), 0)), number(load(&few(1, &[(9, 256)]), 0))), (10, 10));
}

#[test]
fn an_index_is_one_count() {
    // Entries of one index, of which the last counts; and a count in all eight sets.
    let large = [(1, 300), (0, 257), (1, 400), (1, 500)];
    for (live, raised) in [(0, 3), (2, 3), (3, 3), (4, 4), (5, 5)] {
        let bytes = snapshot(8, live, &[(7, 256)], &large);
        assert_eq!(number(read(&bytes, 6)), if live < 3 { 25 } else { 0 });
        let (old_total, state, table) = load(&bytes, 6).unwrap();
        assert_eq!((old_total, state[1], state[2]), (live, raised, 3));
        assert_eq!(table, [0, 257, 1, 500, 7, 256]);
    }
}

#[test]
fn a_total_that_is_enough_stays() {
    let small = [(0, 2), (5, 256)];
    for live in [3, 4, 1_000, u64::MAX - 1, u64::MAX] {
        let bytes = snapshot(1 << 40, live, &small, &[(1 << 39, 257)]);
        for len in [6, 7, 100] {
            let (old_total, state, table) = load(&bytes, len).unwrap();
            assert_eq!((old_total, state[1]), (live, live));
            assert_eq!((state, table), read(&bytes, len).unwrap());
        }
    }
    // No count at all.
    for live in [0, 1] {
        let bytes = snapshot(0, live, &[], &[]);
        assert_eq!(load(&bytes, 1).unwrap().0, live);
        assert_eq!(read(&bytes, 1).unwrap().0[1], live);
    }
}

#[test]
fn loaded_once_and_read_from_then_on() {
    let room = Room { counts: 4, entries: 0, cell_bytes: 0 };
    let old = snapshot(9, 1, &[(0, 5), (2, 17)], &[(3, 300)]);
    let refused = NodeBox::restore(&old, &[], room, Settings::STANDARD, Mode::Unkeyed).unwrap_err();
    assert_eq!((refused, refused.number()), (RestoreError::Snapshot(Refusal::FewCells), 25));
    assert_eq!(refused.to_string(), "snapshot refused with 25");
    let loaded = Counters::load_snapshot(&old, room.counts, SETTINGS).unwrap();
    assert_eq!((loaded.old_total, loaded.counters.live_cells(), loaded.counters.stored()), (1, 3, 3));
    // The new snapshot is the old one but for its total.
    let new = loaded.counters.serialize();
    assert_eq!(new, snapshot(9, 3, &[(0, 5), (2, 17)], &[(3, 300)]));
    let mut c = NodeBox::restore(&new, &[], room, Settings::STANDARD, Mode::Unkeyed).unwrap().node_box.counters;
    assert_eq!((c.state(), c.counts()), (loaded.counters.state(), loaded.counters.counts()));
    assert_eq!((c.get(Idx::new(2)), c.next_idx()), (Ok(RefCount::new(17)), NextIdx::new(9)));
    let again = Counters::load_snapshot(&new, room.counts, SETTINGS).unwrap();
    assert_eq!((again.old_total, again.counters.serialize()), (3, new));
    // It is held to the rule as any other.
    assert_eq!(c.apply_batch(&[change(4, 1, 2)]), Err(Refusal::FewCells));
    assert_eq!(c.apply_batch(&[change(4, 0, 2)]), Ok(()));
}

// ---- beside a plain model

#[derive(Clone, Debug)]
struct Plain {
    next: u64,
    live: u64,
    counts: BTreeMap<u64, u64>,
}

impl Plain {
    // A batch by the documents.
    fn batch(&self, room: usize, batch: &[CounterTransition]) -> Result<Plain, Refusal> {
        let refuse = |faulty: bool, refusal| if faulty { Err(refusal) } else { Ok(()) };
        let kept: Vec<[u64; 3]> =
            batch.iter().filter(|t| t.old_raw != t.new_raw).map(|t| [t.idx.get(), t.old_raw, t.new_raw]).collect();
        refuse(kept.iter().any(|t| t[0] >= self.next), Refusal::Unallocated)?;
        refuse(kept.iter().map(|t| t[0]).collect::<BTreeSet<_>>().len() < kept.len(), Refusal::Repeated)?;
        let is_false = |t: &[u64; 3]| self.counts.get(&t[0]).map_or(t[1] > 1, |count| *count != t[1]);
        refuse(kept.iter().any(is_false), Refusal::FalseOld)?;
        let mut after = self.clone();
        let born = self.live.checked_add(kept.iter().filter(|t| t[1] == 0).count() as u64).ok_or(Refusal::OffTotal)?;
        after.live = born.checked_sub(kept.iter().filter(|t| t[2] == 0).count() as u64).ok_or(Refusal::OffTotal)?;
        for [idx, _, new] in kept {
            _ = if new > 1 { after.counts.insert(idx, new) } else { after.counts.remove(&idx) };
        }
        refuse(after.counts.len() > room, Refusal::TableFull)?;
        refuse(after.counts.len() as u64 > after.live, Refusal::FewCells)?;
        Ok(after)
    }

    // What a snapshot that breaks no other rule holds.
    fn read(next: u64, live: u64, small: &[(u16, u64)], large: &[(u64, u64)]) -> Plain {
        let small = small.iter().map(|(idx, count)| (u64::from(*idx), *count));
        Plain { next, live, counts: small.chain(large.iter().copied()).collect() }
    }

    fn is(&self, c: &Counters) -> bool {
        let counts = c.iter().map(|(idx, count)| (idx.get(), count.get()));
        (self.next, self.live) == (c.next_idx().get(), c.live_cells()) && counts.eq(self.counts.clone())
    }
}

/// The same numbers in every run.
struct Numbers(u64);

impl Numbers {
    fn below(&mut self, n: u64) -> u64 {
        self.0 = self.0.wrapping_mul(6_364_136_223_846_793_005).wrapping_add(1_442_695_040_888_963_407);
        (self.0 >> 33) % n
    }

    fn count(&mut self) -> u64 {
        [0, 0, 0, 1, 1, 1, 2, 3, 256, 257, 1_000][self.below(11) as usize]
    }

    // Mostly true old counts. Where there are cells to spare, rows mostly rise at indices that aren't born here, so that the totals stay near each other.
    fn batch(&mut self, p: &Plain) -> Vec<CounterTransition> {
        let spare = p.live - p.counts.len() as u64;
        let mut batch = Vec::new();
        for _ in 0..[1, 1, 2, 3, 6][self.below(5) as usize] {
            let beyond = u64::from(self.below(8) == 0);
            let idx = self.below(NEXT + beyond);
            let old = match p.counts.get(&idx) {
                Some(count) => *count + u64::from(self.below(60) == 0),
                None => u64::from(self.below(spare + 2) > 0) + u64::from(self.below(80) == 0),
            };
            batch.push(change(idx, old, if self.below(12) == 0 { old } else { self.count() }));
        }
        // One transition an index, but now and then.
        let mut named = BTreeSet::new();
        batch.retain(|t| named.insert(t.idx) || self.below(10) == 0);
        batch
    }
}

#[test]
fn batches_beside_a_plain_model() {
    let mut n = Numbers(5);
    let mut met: BTreeMap<u8, u64> = BTreeMap::new();
    let mut tight = 0;
    for room in [2, 6, 20].repeat(80) {
        let mut c = fresh(NEXT, room);
        let mut p = Plain { next: NEXT, live: 0, counts: BTreeMap::new() };
        for _ in 0..100 {
            let changes = n.batch(&p);
            let (answer, wanted) = (batch(&c, &changes), p.batch(room, &changes));
            assert_eq!(answer.as_ref().err(), wanted.as_ref().err(), "{changes:?} on {p:?}");
            *met.entry(number(wanted.as_ref().map_err(|refusal| *refusal))).or_default() += 1;
            (c, p) = (answer.unwrap_or(c), wanted.unwrap_or(p));
            assert!(p.is(&c) && c.stored() as u64 <= c.live_cells());
            tight += u64::from(c.stored() as u64 == c.live_cells() && c.stored() > 2);
        }
    }
    // What is compared did come about.
    for number in [0, 2, 3, 4, 5, 6] {
        assert!(met[&number] > 100, "{met:?}");
    }
    assert!(met[&25] > 2_000 && tight > 2_000, "{met:?} {tight}");
}

#[test]
fn snapshots_beside_a_plain_model() {
    let mut n = Numbers(6);
    let (mut taken, mut raised, mut full) = (0, 0, 0);
    for _ in 0..4_000 {
        let small: Vec<(u16, u64)> = (0..10).map(|idx| (idx, 2 + n.below(765))).filter(|(_, count)| *count <= 256).collect();
        // Some entries name an index again.
        let large: Vec<(u64, u64)> = (0..n.below(6)).map(|_| (10 + n.below(5), 257 + n.below(1_000))).collect();
        let (next, live, len) = (15 + n.below(3), n.below(12), 24 - n.below(16) as usize);
        let bytes = snapshot(next, live, &small, &large);
        let p = Plain::read(next, live, &small, &large);
        let stored = p.counts.len() as u64;
        let (answer, loaded) = (read(&bytes, len), load(&bytes, len));
        if stored > len as u64 / 2 {
            assert_eq!((answer.unwrap_err(), loaded.unwrap_err()), (Refusal::TableFull, Refusal::TableFull));
            full += 1;
            continue;
        }
        let (old_total, state, table) = loaded.unwrap();
        let loaded = Counters::from_parts(state, table.clone().into()).unwrap();
        assert!(Plain { live: live.max(stored), ..p.clone() }.is(&loaded) && old_total == live);
        if live < stored {
            assert_eq!(answer.unwrap_err(), Refusal::FewCells);
            raised += 1;
        } else {
            assert_eq!(answer.unwrap(), (state, table));
            taken += 1;
        }
    }
    assert!(taken > 1_000 && raised > 1_000 && full > 100, "{taken} {raised} {full}");
}
