//! A box's life: indices and counts, a young cell, its promotion, and the box read in again.
use std::error::Error;

use selvaigo::{CounterTransition, HashBytes, Mode, NextIdx, NodeBox, NurseryDelta, NurseryEntryRecord, Room, Settings, hash};

fn main() -> Result<(), Box<dyn Error>> {
    let (room, settings) =
        (Room { counts: 1_024, entries: 256, cell_bytes: 16_384 }, Settings { delay: 50, ..Settings::default() });
    let (mut node, mut journal) = (NodeBox::new(NextIdx::new(0), room, settings, Mode::Unkeyed)?, Vec::new());
    let idx = node.counters.alloc_idx()?;
    node.counters.apply_batch(&[CounterTransition { idx, old_raw: 0, new_raw: 3 }])?;
    let cell = NurseryEntryRecord { hash: HashBytes(hash(b"a cell")), idx, born_round: 7, data: b"a cell".to_vec() };
    node.commit(1, &NurseryDelta { inserts: vec![cell], removes: vec![] }, &mut journal)?;
    node.nursery.drain_promotable(57, |hash, idx, data| println!("promoted {hash}: index {}, {} bytes", idx.get(), data.len()));
    let again = NodeBox::restore(&node.counters.serialize(), &journal, room, settings, Mode::Unkeyed)?;
    println!("read in again: {:?}, {:?}", again.node_box, again.journal);
    let refused = node.counters.apply_batch(&[CounterTransition { idx, old_raw: 2, new_raw: 5 }]).unwrap_err();
    println!("an old count of 2: {refused} ({})", refused.number());
    Ok(())
}
