// The nursery.
use std::hint::black_box;
use std::num::NonZeroUsize;
use std::sync::Arc;

use rayon::ThreadPool;
use selvaigo::{DeltaItems, NurseryParts, PromotedCell, Settings, raw};
use tycho_types::cell::HashBytes;

use super::super::cell_nursery::{CellNursery, NurseryDelta, NurseryEntryRecord};
use super::{hash_of, insert, items_of, mixed, with_commas};
use crate::measure::{Run, prepared, side};

pub fn lines(run: &Run, pool: &Arc<ThreadPool>) {
    for n in [1_000, 100_000] {
        for m in [100, 10_000] {
            delta(run, pool, n, m);
        }
    }
    for n in [1_000, 100_000] {
        for m in [100, 10_000] {
            drain(run, pool, n, m);
        }
    }
    for n in [1_000, 100_000] {
        lookups(run, pool, n);
    }
    for n in [1_000, 100_000] {
        listing(run, pool, n);
    }
}

fn hash_words(hash: &HashBytes) -> [u64; 4] {
    std::array::from_fn(|k| u64::from_be_bytes(hash.0[8 * k..][..8].try_into().unwrap()))
}

// The port's nursery of entries that have come by ascending rounds, with room for `free` more.
fn port_of(entries: &[NurseryEntryRecord], free: usize) -> selvaigo::CellNursery {
    let n = entries.len() as u64;
    let mut rows = Vec::with_capacity(8 * (entries.len() + free));
    let mut cells = Vec::with_capacity(100 * (entries.len() + free));
    let mut by_hash: Vec<&NurseryEntryRecord> = entries.iter().collect();
    by_hash.sort_by_key(|e| e.hash.0);
    for e in by_hash {
        rows.extend_from_slice(&hash_words(&e.hash));
        rows.extend_from_slice(&[e.idx.get(), e.born_round.into(), cells.len() as u64, e.data.len() as u64]);
        cells.extend_from_slice(&e.data);
    }
    let mut waiting: Vec<u64> =
        entries.iter().flat_map(|e| std::iter::once(e.born_round.into()).chain(hash_words(&e.hash))).collect();
    // The delay that the original has fixed.
    let nursery = [n, n, cells.len() as u64, Settings::STANDARD.delay];
    rows.resize(rows.len() + 8 * free, 0);
    waiting.resize(waiting.len() + 5 * free, 0);
    cells.resize(cells.len() + 100 * free, 0);
    let parts = NurseryParts { nursery, entries: rows.into(), waiting: waiting.into(), cells: cells.into() };
    selvaigo::CellNursery::from_parts(parts).unwrap()
}

// Both sides with the same entries, the original's in one stripe.
fn both(pool: &Arc<ThreadPool>, entries: Vec<NurseryEntryRecord>, free: usize) -> (CellNursery, selvaigo::CellNursery) {
    let port = port_of(&entries, free);
    let original = CellNursery::new(NonZeroUsize::MIN, pool.clone());
    original.apply_commit(NurseryDelta { inserts: entries, removes: Vec::new() });
    (original, port)
}

pub fn same_entries(original: &CellNursery, port: &selvaigo::CellNursery) {
    let mut theirs = original.snapshot_entries();
    theirs.sort_by_key(|e| e.hash.0);
    let ours = port.snapshot_entries();
    assert_eq!(ours.len(), theirs.len());
    for (a, b) in ours.iter().zip(&theirs) {
        assert!(a.hash.0 == b.hash.0 && a.idx.get() == b.idx.get(), "the two nurseries differ");
        assert!(a.born_round == b.born_round && a.data == b.data, "the two nurseries differ");
    }
}

// A delta of so many inserts of later rounds, and the delta that removes them.
struct ThereAndBack {
    entries: Vec<NurseryEntryRecord>,
    inserts: Vec<u8>,
    removes: Vec<u8>,
}

impl ThereAndBack {
    fn new(entries: Vec<NurseryEntryRecord>) -> Self {
        let removes = entries.iter().flat_map(|e| e.hash.0).collect();
        Self { inserts: items_of(&entries), removes, entries }
    }

    fn port(&self) -> [DeltaItems<'_>; 2] {
        let m = self.entries.len() as u64;
        [DeltaItems::borrowed(m, 0, &self.inserts), DeltaItems::borrowed(0, m, &self.removes)]
    }

    // The original takes up a delta.
    fn original(&self) -> [NurseryDelta; 2] {
        let removes = self.entries.iter().map(|e| e.hash).collect();
        [NurseryDelta { inserts: self.entries.clone(), removes: Vec::new() }, NurseryDelta { inserts: Vec::new(), removes }]
    }
}

fn commit(p: &mut NurseryParts, items: &DeltaItems<'_>) {
    raw::apply_commit(&mut p.nursery, &mut p.entries, &mut p.waiting, &mut p.cells, items).unwrap();
}

fn delta(run: &Run, pool: &Arc<ThreadPool>, n: u64, m: u64) {
    let what = format!("delta of {}, {} entries", with_commas(m), with_commas(n));
    if !run.wanted(&what) {
        return;
    }
    let (original, mut port) = both(pool, (0..n).map(insert).collect(), m as usize);
    let deltas = ThereAndBack::new((n..n + m).map(insert).collect());
    let mut parts = port.clone().into_parts();
    for (theirs, items) in deltas.original().into_iter().zip(deltas.port()) {
        original.apply_commit(theirs);
        port.apply_items(&items).unwrap();
        commit(&mut parts, &items);
        same_entries(&original, &port);
        assert!(port.clone().into_parts() == parts, "the two forms differ");
    }
    let take = |pair: &mut Option<[NurseryDelta; 2]>| pair.take().unwrap().into_iter().for_each(|d| original.apply_commit(d));
    run.line(
        &what,
        [
            side(2, || deltas.port().iter().for_each(|items| port.apply_items(items).unwrap())),
            side(2, || deltas.port().iter().for_each(|items| commit(&mut parts, items))),
            prepared(2, || Some(deltas.original()), take),
        ],
    );
}

// So many are due, over so many that aren't. The original's callback looks at each cell, the port writes it into the output.
fn drain(run: &Run, pool: &Arc<ThreadPool>, n: u64, m: u64) {
    let what = format!("drain of {}, {} entries", with_commas(m), with_commas(n));
    if !run.wanted(&what) {
        return;
    }
    let round = |i: u64| if i < m { i as u32 / 100 } else { 1_000 };
    let entries = (0..n + m).map(|i| NurseryEntryRecord { born_round: round(i), ..insert(i) }).collect::<Vec<_>>();
    let due = ThereAndBack::new(entries[..m as usize].to_vec());
    let (original, port) = both(pool, entries, 0);
    let mut out = vec![0; 142 * m as usize];
    let drained = port.clone().drain_promotable_into(999, &mut out).unwrap();
    let mut ours = PromotedCell::all(&out[..drained]);
    original.drain_promotable(999, |hash, idx, data| {
        let cell = ours.next().unwrap();
        assert!(cell.hash.0 == hash.0 && cell.idx.get() == idx.get() && cell.data == data, "the two drains differ");
    });
    assert!(ours.next().is_none() && drained == out.len());
    drop(ours);

    let again = || due.original().into_iter().rev().for_each(|delta| original.apply_commit(delta));
    let mut other = out.clone();
    let checked = |p: &mut NurseryParts| {
        black_box(raw::drain_promotable(&mut p.nursery, &p.entries, &mut p.waiting, &p.cells, 999, &mut other)).unwrap();
    };
    let look = |hash, idx, data: &[u8]| _ = black_box((hash, idx, data.as_ptr()));
    run.line(
        &what,
        [
            prepared(1, || port.clone(), |port| _ = black_box(port.drain_promotable_into(999, &mut out)).unwrap()),
            prepared(1, || port.clone().into_parts(), checked),
            prepared(1, again, |()| original.drain_promotable(999, look)),
        ],
    );
    assert!(out == other, "the two forms differ");
}

// Every other hash that is looked up has an entry.
fn lookups(run: &Run, pool: &Arc<ThreadPool>, n: u64) {
    let what = format!("{} entries", with_commas(n));
    if !run.wanted(&format!("get_idx, {what}, get_data, {what}")) {
        return;
    }
    let (original, port) = both(pool, (0..n).map(insert).collect(), 0);
    let at: Vec<[u8; 32]> = (0..1_000).map(|k| hash_of(mixed(k) % n + k % 2 * n)).collect();
    let (nursery, rows, cells) = (port.nursery(), port.entries(), port.cells());
    let held = |h: &[u8; 32]| port.get_idx(&selvaigo::HashBytes(*h)).map_or(0, |idx| idx.get());
    let checked = |h: &[u8; 32]| raw::get_idx(nursery, rows, &selvaigo::HashBytes(*h)).unwrap().map_or(0, |idx| idx.get());
    let theirs = |h: &[u8; 32]| original.read().get_idx(&HashBytes(*h)).map_or(0, |idx| idx.get());
    looked_up(run, &format!("get_idx, {what}"), &at, held, checked, theirs);
    let sum = |cell: &[u8]| u64::from(cell[0]) + cell.len() as u64;
    let held = |h: &[u8; 32]| port.get(&selvaigo::HashBytes(*h)).map_or(0, sum);
    let checked = |h: &[u8; 32]| {
        let place = raw::get_data(nursery, rows, cells, &selvaigo::HashBytes(*h)).unwrap();
        place.map_or(0, |place| sum(&cells[place]))
    };
    let theirs = |h: &[u8; 32]| original.read().get_data(&HashBytes(*h)).map_or(0, |(_, cell)| sum(cell));
    looked_up(run, &format!("get_data, {what}"), &at, held, checked, theirs);
}

fn looked_up(
    run: &Run,
    what: &str,
    at: &[[u8; 32]],
    held: impl Fn(&[u8; 32]) -> u64,
    checked: impl Fn(&[u8; 32]) -> u64,
    theirs: impl Fn(&[u8; 32]) -> u64,
) {
    if !run.wanted(what) {
        return;
    }
    assert!(at.iter().all(|h| held(h) == theirs(h)) && at[..10].iter().all(|h| checked(h) == theirs(h)));
    run.line(
        what,
        [
            side(1_000, || _ = black_box(at.iter().map(&held).fold(0, u64::wrapping_add))),
            side(10, || _ = black_box(at[..10].iter().map(&checked).fold(0, u64::wrapping_add))),
            side(1_000, || _ = black_box(at.iter().map(&theirs).fold(0, u64::wrapping_add))),
        ],
    );
}

// The port writes entries and cells into the output, by ascending hash; the original gives them in memory, in any order, and copies no cell.
fn listing(run: &Run, pool: &Arc<ThreadPool>, n: u64) {
    let what = format!("listing, {} entries", with_commas(n));
    if !run.wanted(&what) {
        return;
    }
    let (original, port) = both(pool, (0..n).map(insert).collect(), 0);
    same_entries(&original, &port);
    let mut out = vec![0; port.snapshot_entries_len()];
    let mut again = out.clone();
    run.line(
        &what,
        [
            side(1, || _ = black_box(port.snapshot_entries_into(&mut out).unwrap())),
            side(1, || _ = black_box(raw::snapshot_entries(port.nursery(), port.entries(), port.cells(), &mut again).unwrap())),
            side(1, || drop(black_box(original.snapshot_entries()))),
        ],
    );
    assert!(out == again, "the two forms differ");
}
