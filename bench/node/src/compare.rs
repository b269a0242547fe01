// What is compared. In each line both sides are seen to give the same answer, else the run stops. All runs inside the original's pool of
// one thread, so its calls pass work to no other thread.
use std::sync::Arc;

use bytes::Bytes;
use rayon::ThreadPool;
use tycho_types::cell::HashBytes;

use super::cell_nursery::NurseryEntryRecord;
use super::counters::Idx;
use crate::measure::{Run, with_commas};

mod compare_counters;
mod compare_nursery;
mod compare_records;

pub fn run(run: Run) {
    let pool = Arc::new(rayon::ThreadPoolBuilder::new().num_threads(1).build().unwrap());
    run.head();
    let shared = &pool;
    pool.install(move || {
        for bytes in [64, 1_024, 16_384, 1_048_576] {
            compare_records::hash(&run, bytes);
        }
        compare_counters::lines(&run, shared);
        compare_nursery::lines(&run, shared);
        for inserts in [10, 1_000, 10_000] {
            compare_records::record(&run, inserts);
        }
        // The last one is mostly hashed, the others mostly applied.
        for (records, inserts, cell) in [(1_000, 1, 100), (10_000, 1, 100), (100, 100, 200), (100, 1, 20_000)] {
            compare_records::journal(&run, shared, records, inserts, cell);
        }
        run.foot();
        compare_records::conversions(&run);
    });
}

// Numbers that look random and are the same in each run.
fn mixed(x: u64) -> u64 {
    let x = (x ^ (x >> 30)).wrapping_add(0x9e37_79b9_7f4a_7c15).wrapping_mul(0xbf58_476d_1ce4_e5b9);
    let x = (x ^ (x >> 27)).wrapping_mul(0x94d0_49bb_1331_11eb);
    x ^ (x >> 31)
}

fn hash_of(i: u64) -> [u8; 32] {
    std::array::from_fn(|k| mixed(i * 4 + k as u64 / 8).to_be_bytes()[k % 8])
}

// A cell of 100 bytes, born in a round with 99 others.
fn insert(i: u64) -> NurseryEntryRecord {
    insert_of(i, 100)
}

fn insert_of(i: u64, cell: u64) -> NurseryEntryRecord {
    NurseryEntryRecord {
        hash: HashBytes(hash_of(i)),
        idx: Idx::new(i),
        born_round: i as u32 / 100,
        data: Bytes::from((0..cell).map(|k| mixed(i * cell + k) as u8).collect::<Vec<u8>>()),
    }
}

// The inserts as the port is lent them.
fn items_of(inserts: &[NurseryEntryRecord]) -> Vec<u8> {
    let mut items = Vec::new();
    for e in inserts {
        items.extend_from_slice(&e.hash.0);
        items.extend_from_slice(&e.idx.get().to_le_bytes());
        items.extend_from_slice(&e.born_round.to_le_bytes());
        items.extend_from_slice(&(e.data.len() as u16).to_le_bytes());
        items.extend_from_slice(&e.data);
    }
    items
}
