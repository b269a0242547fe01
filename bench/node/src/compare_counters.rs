// Counters and their snapshots.
use std::hint::black_box;
use std::sync::Arc;

use rayon::ThreadPool;
use selvaigo::{CounterTransition, Refusal, ShrinkSettings, raw, sys};

use super::super::counters::{Counters, Idx, NextIdx};
use super::{mixed, with_commas};
use crate::measure::{Run, side};

// The settings that the original has fixed.
const STANDARD: ShrinkSettings = ShrinkSettings::STANDARD;

pub fn lines(run: &Run, pool: &Arc<ThreadPool>) {
    for n in [1_000, 100_000, 1_000_000] {
        for m in [100, 10_000] {
            batch(run, pool, n, m);
        }
    }
    for n in [1_000, 100_000, 1_000_000] {
        get(run, pool, n);
    }
    let sets = [1_000, 100_000, 1_000_000].map(|n| [("dense", n, 1), ("spread", n, 1_000)]).concat();
    for &(name, n, step) in &sets {
        snapshot_write(run, pool, name, n, step);
    }
    for &(name, n, step) in &sets {
        snapshot_read(run, pool, name, n, step);
    }
}

// 2 to 256, and one in a hundred large.
fn count_of(i: u64) -> u64 {
    let x = mixed(i);
    if i % 100 == 99 { 257 + x % 1_000_000 } else { 2 + x % 255 }
}

fn original_batch(c: &mut Counters, batch: &[CounterTransition]) {
    let mut b = c.begin();
    b.reserve(batch.len());
    for t in batch {
        b.update_raw(Idx::new(t.idx.get()), t.old_raw, t.new_raw);
    }
    b.apply();
}

fn words_of(batch: &[CounterTransition]) -> Vec<u64> {
    batch.iter().flat_map(|t| [t.idx.get(), t.old_raw, t.new_raw]).collect()
}

// Both sides with counts at 0, step, 2 * step ..: the port's table has room for `free` more.
fn both(pool: &Arc<ThreadPool>, n: u64, step: u64, free: usize) -> (Counters, selvaigo::Counters) {
    let mut original = Counters::new(NextIdx::new(n * step), pool.clone());
    let born = |i| CounterTransition { idx: selvaigo::Idx::new(i * step), old_raw: 0, new_raw: count_of(i) };
    original_batch(&mut original, &(0..n).map(born).collect::<Vec<_>>());
    let mut table: Vec<u64> = (0..n).flat_map(|i| [i * step, count_of(i)]).collect();
    table.resize(table.len() + 2 * free, 0);
    let empty = selvaigo::Counters::new(selvaigo::NextIdx::new(n * step), 0, STANDARD).unwrap();
    let (mut state, _) = empty.into_parts();
    (state[1], state[2]) = (n, n);
    (original, selvaigo::Counters::from_parts(state, table.into()).unwrap())
}

// The original writes its large counts in any order, the port by index.
fn ordered(snapshot: &[u8], large: usize) -> Vec<u8> {
    let (front, back) = snapshot.split_at(snapshot.len() - 16 * large);
    let mut entries: Vec<&[u8]> = back.chunks_exact(16).collect();
    entries.sort_by_key(|e| u64::from_le_bytes(e[..8].try_into().unwrap()));
    [front.to_vec(), entries.concat()].concat()
}

fn same_snapshot(original: &mut Counters, port: &selvaigo::Counters) -> Vec<u8> {
    let large = port.iter().filter(|(_, count)| count.get() > 256).count();
    let snapshot = port.serialize();
    assert!(snapshot == ordered(&original.serialize(), large), "the two snapshots differ");
    snapshot
}

fn snapshot_write(run: &Run, pool: &Arc<ThreadPool>, name: &str, n: u64, step: u64) {
    let what = format!("snapshot write, {} counts, {name}", with_commas(n));
    if !run.wanted(&what) {
        return;
    }
    let (mut original, port) = both(pool, n, step, 0);
    let mut out = same_snapshot(&mut original, &port);
    let mut again = out.clone();
    run.line(
        &what,
        [
            side(1, || _ = black_box(port.serialize_into(&mut out).unwrap())),
            side(1, || _ = black_box(raw::serialize(port.state(), port.counts(), &mut again).unwrap())),
            side(1, || drop(black_box(original.serialize()))),
        ],
    );
    assert!(out == again, "the two forms differ");
}

// The port's call on a snapshot: reading, or loading.
type Reads = fn(&[u8], ShrinkSettings, &mut [u64; sys::STATE], &mut [u64]) -> Result<(), Refusal>;

fn loads(snapshot: &[u8], settings: ShrinkSettings, state: &mut [u64; sys::STATE], counts: &mut [u64]) -> Result<(), Refusal> {
    raw::load_snapshot(snapshot, settings, state, counts).map(|_| ())
}

fn snapshot_read(run: &Run, pool: &Arc<ThreadPool>, name: &str, n: u64, step: u64) {
    let what = format!("snapshot read, {} counts, {name}", with_commas(n));
    if !run.wanted(&what) {
        return;
    }
    let (mut original, port) = both(pool, n, step, 0);
    let in_no_order = original.serialize();
    let mut back = Counters::deserialize_trusted(&in_no_order, pool.clone()).unwrap();
    let ascending = same_snapshot(&mut back, &port);
    // The live total 0, which loading raises to what it was.
    let mut no_cells = ascending.clone();
    no_cells[9..17].fill(0);
    let read: Reads = raw::deserialize_trusted;
    let lines = [("", ascending, read), (", large in no order", in_no_order, read), (", loaded", no_cells, loads as Reads)];
    for (how, bytes, reads) in lines {
        let (mut state, mut table) = ([0; sys::STATE], vec![1; port.counts().len()]);
        let ours = side(1, || black_box(reads(&bytes, STANDARD, &mut state, &mut table)).unwrap());
        let theirs = side(1, || drop(black_box(Counters::deserialize_trusted(&bytes, pool.clone()).unwrap())));
        run.line(&format!("{what}{how}"), [ours, theirs]);
        assert!(&state == port.state() && table == port.counts(), "the port reads another state");
    }
}

// Every other index that is looked up has a row.
fn get(run: &Run, pool: &Arc<ThreadPool>, n: u64) {
    let what = format!("get, {} counts", with_commas(n));
    if !run.wanted(&what) {
        return;
    }
    let (original, port) = both(pool, n, 100, 0);
    let at: Vec<u64> = (0..1_000).map(|k| mixed(k) % n * 100 + k % 2).collect();
    let held = |i| port.get(selvaigo::Idx::new(i)).unwrap().get();
    let checked = |i| raw::get(port.state(), port.counts(), selvaigo::Idx::new(i)).unwrap().get();
    let theirs = |i| original.get(Idx::new(i));
    assert!(at.iter().all(|i| held(*i) == theirs(*i)) && at[..10].iter().all(|i| checked(*i) == theirs(*i)));
    run.line(
        &what,
        [
            side(1_000, || _ = black_box(at.iter().map(|i| held(*i)).fold(0, u64::wrapping_add))),
            side(10, || _ = black_box(at[..10].iter().map(|i| checked(*i)).fold(0, u64::wrapping_add))),
            side(1_000, || _ = black_box(at.iter().map(|i| theirs(*i)).fold(0, u64::wrapping_add))),
        ],
    );
}

// A batch in no order and the batch that takes it back: half of it changes stored counts and half bears cells with new ones.
fn there_and_back(n: u64, m: u64) -> [Vec<CounterTransition>; 2] {
    let changes = n.min(m / 2);
    let rises = m - changes;
    let change = |idx, old_raw, new_raw| CounterTransition { idx: selvaigo::Idx::new(idx), old_raw, new_raw };
    let mut there: Vec<CounterTransition> = (0..changes)
        .map(|k| k * (n / changes))
        .map(|i| change(i * 100, count_of(i), count_of(i) % 256 + 2))
        .chain((0..rises).map(|k| change(k * (n * 100 / rises) | 1, 0, 2 + k % 300)))
        .collect();
    there.sort_by_key(|t| mixed(t.idx.get()));
    let back = there.iter().map(|t| change(t.idx.get(), t.new_raw, t.old_raw)).collect();
    [there, back]
}

fn batch(run: &Run, pool: &Arc<ThreadPool>, n: u64, m: u64) {
    let what = format!("batch of {}, {} counts", with_commas(m), with_commas(n));
    if !run.wanted(&what) {
        return;
    }
    let (mut original, mut port) = both(pool, n, 100, m as usize);
    let batches = there_and_back(n, m);
    let (mut state, mut table) = port.clone().into_parts();
    let words = [words_of(&batches[0]), words_of(&batches[1])];
    for (batch, words) in batches.iter().zip(&words) {
        original_batch(&mut original, batch);
        port.apply_batch(batch).unwrap();
        raw::apply_batch(&mut state, &mut table, words).unwrap();
        same_snapshot(&mut original, &port);
        assert!(&state == port.state() && *table == *port.counts(), "the two forms differ");
    }
    run.line(
        &what,
        [
            side(2, || batches.iter().for_each(|b| port.apply_batch(b).unwrap())),
            side(2, || words.iter().for_each(|b| raw::apply_batch(&mut state, &mut table, b).unwrap())),
            side(2, || batches.iter().for_each(|b| original_batch(&mut original, b))),
        ],
    );
}
