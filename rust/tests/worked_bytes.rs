//! The worked lines of document 01, boxes that go on from them, and batches taken back (document 02, P7).
use selvaigo::{
    CellNursery, CounterTransition, Counters, HashBytes, Idx, Mode, NextIdx, NodeBox, NurseryDelta, NurseryEntryRecord, RefCount,
    Refusal, Room, Settings, adjust_shrink_threshold, decode_record, encode_record, hash, read_journal, should_shrink,
};

const SETTINGS: Settings = Settings::STANDARD;

fn counters(next: u64, room: usize) -> Counters {
    Counters::new(NextIdx::new(next), room, SETTINGS.shrink()).unwrap()
}

fn nursery(entries: usize, cell_bytes: usize) -> CellNursery {
    CellNursery::new(entries, cell_bytes, SETTINGS.delay).unwrap()
}

fn change(idx: u64, old_raw: u64, new_raw: u64) -> CounterTransition {
    CounterTransition { idx: Idx::new(idx), old_raw, new_raw }
}

fn insert(tag: u8, idx: u64, born_round: u32, data: &[u8]) -> NurseryEntryRecord {
    NurseryEntryRecord { hash: HashBytes([tag; 32]), idx: Idx::new(idx), born_round, data: data.to_vec() }
}

fn inserts(entries: Vec<NurseryEntryRecord>) -> NurseryDelta {
    NurseryDelta { inserts: entries, removes: vec![] }
}

fn promoted(nursery: &mut CellNursery, round: u32) -> Vec<(HashBytes, u64, Vec<u8>)> {
    let mut all = Vec::new();
    nursery.drain_promotable(round, |hash, idx, data| all.push((hash, idx.get(), data.to_vec())));
    all
}

fn hex(text: &str) -> Vec<u8> {
    let digits: Vec<u8> = text.bytes().filter(|b| *b != b' ').collect();
    digits.chunks(2).map(|two| u8::from_str_radix(std::str::from_utf8(two).unwrap(), 16).unwrap()).collect()
}

#[test]
fn a_fresh_snapshot() {
    let set = [vec![8], vec![0; 15]].concat();
    let expected = [vec![1], vec![0; 16], set.repeat(8)].concat();
    assert_eq!(expected.len(), 145);
    assert_eq!(counters(0, 0).serialize(), expected);
}

#[test]
fn snapshots_of_one_count() {
    for (count, len) in [(2, 167), (256, 321), (257, 161)] {
        let mut c = counters(4, 1);
        c.apply_batch(&[change(3, 0, count)]).unwrap();
        let snapshot = c.serialize();
        assert_eq!((snapshot.len(), c.serialized_len()), (len, len));
        if count == 2 {
            assert_eq!(snapshot[25..55], hex("0100000000000000 00000000 3a300000 01000000 00000000 10000000 0300"));
        }
        let back = Counters::deserialize_trusted(&snapshot, 1, SETTINGS.shrink()).unwrap();
        assert_eq!((back.state(), back.counts()), (c.state(), c.counts()));
        assert_eq!(back.get(Idx::new(3)), Ok(RefCount::new(count)));
        assert_eq!(back.get(Idx::new(2)), Ok(RefCount::ONE));
    }
}

#[test]
fn between_the_tiers() {
    let mut c = counters(4, 1);
    c.apply_batch(&[change(3, 0, 256)]).unwrap();
    c.apply_batch(&[change(3, 256, 257)]).unwrap();
    assert_eq!(c.maintenance().small_removed_since_shrink, [1; 8]);
    assert_eq!(c.maintenance().alive_removed_since_shrink, 0);
    assert_eq!(c.iter().collect::<Vec<_>>(), [(Idx::new(3), RefCount::BIG_MIN)]);
    c.apply_batch(&[change(3, 257, 1)]).unwrap();
    assert_eq!((c.stored(), c.live_cells()), (0, 1));
    assert_eq!(c.maintenance().alive_removed_since_shrink, 1);
    assert!(c.counts().iter().all(|word| *word == 0));
}

#[test]
fn what_a_batch_drops_and_takes() {
    let mut c = counters(4, 1);
    let before = c.clone();
    c.apply_batch(&[change(9, 7, 7)]).unwrap();
    assert_eq!((c.state(), c.counts()), (before.state(), before.counts()));
    assert_eq!(c.get(Idx::new(4)), Err(Refusal::Unallocated));
    assert_eq!(c.get(Idx::new(3)), Ok(RefCount::ONE));
    let mut batch = c.begin();
    batch.reserve(1);
    batch.update_raw(Idx::new(3), 0, 2);
    batch.apply().unwrap();
    assert_eq!(c.get(Idx::new(3)), Ok(RefCount::new(2)));
}

#[test]
fn batches_taken_back() {
    let mut c = counters(4, 2);
    let before = c.clone();
    c.apply_batch(&[change(1, 0, 3), change(0, 0, 1), change(9, 7, 7)]).unwrap();
    assert_eq!((c.live_cells(), c.stored()), (2, 1));
    c.apply_batch(&[change(0, 1, 0), change(2, 5, 5), change(1, 3, 0)]).unwrap();
    assert_eq!((c.serialize(), c.counts()), (before.serialize(), before.counts()));
    c.apply_batch(&[change(2, 0, 1)]).unwrap();
    c.apply_batch(&[change(2, 1, 0)]).unwrap();
    assert_eq!(c.apply_batch(&[change(2, 1, 0)]), Err(Refusal::OffTotal));
    assert_eq!((c.serialize(), c.counts()), (before.serialize(), before.counts()));

    c.apply_batch(&[change(3, 0, 256)]).unwrap();
    let (snapshot, removed) = (c.serialize(), c.maintenance().small_removed_since_shrink);
    c.apply_batch(&[change(3, 256, 257)]).unwrap();
    c.apply_batch(&[change(3, 257, 256)]).unwrap();
    assert_eq!(c.serialize(), snapshot);
    assert_eq!(c.maintenance().small_removed_since_shrink, removed.map(|n| n + 1));
}

#[test]
fn a_batch_taken_back_in_a_full_table() {
    let mut c = counters(4, 1);
    c.apply_batch(&[change(0, 0, 3)]).unwrap();
    let snapshot = c.serialize();
    assert_eq!(c.apply_batch(&[change(1, 0, 4)]), Err(Refusal::TableFull));
    c.apply_batch(&[change(0, 3, 1), change(1, 0, 4)]).unwrap();
    assert_eq!(c.counts(), [1, 4]);
    c.apply_batch(&[change(0, 1, 3), change(1, 4, 0)]).unwrap();
    assert_eq!(c.counts(), [0, 3]);
    assert_eq!(c.serialize(), snapshot);
}

#[test]
fn the_lines_of_boxrun() {
    let mut c = counters(0, 1_024);
    assert_eq!((c.alloc_idx(), c.alloc_idx()), (Ok(Idx::new(0)), Ok(Idx::new(1))));
    assert_eq!(c.apply_batch(&[change(1, 0, 3), change(0, 0, 1)]), Ok(()));
    assert_eq!((c.next_idx().get(), c.live_cells()), (2, 2));
    assert_eq!(c.apply_batch(&[change(1, 2, 5)]), Err(Refusal::FalseOld));
    assert_eq!((c.next_idx().get(), c.live_cells()), (2, 2));
}

#[test]
fn drains_by_round_and_arrival() {
    let mut n = nursery(4, 16);
    n.apply_commit(&inserts(vec![insert(2, 20, 1, b"b"), insert(9, 90, 0, b"i"), insert(1, 10, 0, b"a")])).unwrap();
    assert_eq!(promoted(&mut n, 99), []);
    assert_eq!(promoted(&mut n, 100), [(HashBytes([9; 32]), 90, b"i".to_vec()), (HashBytes([1; 32]), 10, b"a".to_vec())]);
    assert_eq!((n.len(), n.waiting_len()), (3, 1));
    assert_eq!(promoted(&mut n, 100), []);
    assert_eq!(promoted(&mut n, 200), [(HashBytes([2; 32]), 20, b"b".to_vec())]);
}

#[test]
fn inserts_precede_removes() {
    let mut n = nursery(2, 4);
    n.apply_commit(&NurseryDelta { inserts: vec![insert(1, 10, 7, b"aa")], removes: vec![HashBytes([1; 32])] }).unwrap();
    assert!(n.is_empty() && n.get_idx(&HashBytes([1; 32])).is_none());
    n.apply_commit(&inserts(vec![insert(1, 11, 7, b"abcd")])).unwrap();
    assert_eq!(n.get_data(&HashBytes([1; 32])), Some((Idx::new(11), &b"abcd"[..])));
    assert_eq!(n.get(&HashBytes([2; 32])), None);
}

#[test]
fn the_tables_of_one_entry() {
    let mut n = nursery(1, 4);
    let mut one = [0; 32];
    one[31] = 1;
    let entry = NurseryEntryRecord { hash: HashBytes(one), idx: Idx::new(10), born_round: 7, data: vec![0xaa, 0xbb] };
    n.apply_commit(&inserts(vec![entry.clone()])).unwrap();
    assert_eq!(n.nursery(), &[1, 1, 2, 100]);
    assert_eq!(n.entries(), [0, 0, 0, 1, 10, 7, 0, 2]);
    assert_eq!(n.waiting(), [7, 0, 0, 0, 1]);
    assert_eq!(n.cells(), [0xaa, 0xbb, 0, 0]);
    assert_eq!(n.snapshot_entries(), [entry]);
    assert_eq!(n.snapshot_entries_len(), 48);
    let parts = n.clone().into_parts();
    assert_eq!(CellNursery::from_parts(parts.clone()).unwrap().into_parts(), parts);
}

#[test]
fn records() {
    let empty = encode_record(&Mode::Unkeyed, 5, &NurseryDelta::default()).unwrap();
    assert_eq!(empty.bytes().len(), 56);
    assert_eq!(decode_record(&Mode::Unkeyed, &empty.bytes()[..55]), Err(Refusal::ShortRecord));
    assert_eq!(empty.hash(), &hash(&empty.bytes()[32..]));
    let delta = NurseryDelta { inserts: vec![insert(3, 1, 2, b"xyz")], removes: vec![] };
    let record = encode_record(&Mode::Unkeyed, 6, &delta).unwrap();
    assert_eq!(record.bytes().len(), 105);
    let delta = NurseryDelta { removes: vec![HashBytes([8; 32])], ..delta };
    let record = encode_record(&Mode::Unkeyed, 7, &delta).unwrap();
    let behind = [record.bytes(), b"rest"].concat();
    let back = decode_record(&Mode::Unkeyed, &behind).unwrap();
    assert_eq!((back.id, back.hash, back.record_len()), (7, *record.hash(), 137));
    assert_eq!((back.delta(), &back.stats), (delta, record.stats()));
    let s = back.stats;
    let figures = (s.payload_bytes, s.metadata_bytes, s.cell_bytes, s.insert_ops, s.remove_ops);
    assert_eq!(figures, (97, 94, 3, 1, 1));
}

#[test]
fn the_hash_of_nothing() {
    let expected = hex("af1349b9f5f9a1a6a0404dea36dcc9499bcb25c9adc112b7cc9a93cae41f3262");
    assert_eq!(hash(&[]).to_vec(), expected);
}

#[test]
fn maintenance() {
    assert!(should_shrink(393_216, 131_072, 131_072));
    assert!(!should_shrink(393_217, 131_072, 131_072));
    assert!(should_shrink(0, 1, 65_536) && !should_shrink(0, 0, 0));
    let threshold = |min, saved| adjust_shrink_threshold(min, saved, SETTINGS.shrink());
    assert_eq!(threshold(131_072, 1_048_575), 262_144);
    assert_eq!(threshold(2_097_152, 0), 2_097_152);
    assert_eq!(threshold(2_097_152, 1_048_576), 131_072);
    let mut c = counters(1, 1);
    c.apply_batch(&[change(0, 0, 2)]).unwrap();
    c.apply_batch(&[change(0, 2, 1)]).unwrap();
    let shrunk = c.shrink_if_needed(0);
    assert_eq!((shrunk.alive, shrunk.small), (true, [true, false, false, false, false, false, false, false]));
    assert_eq!(c.maintenance().alive_removed_since_shrink, 0);
    assert_eq!(c.maintenance().min_alive_removed_before_shrink, 262_144);
}

#[test]
fn a_box_is_read_in_again() {
    let room = Room { counts: 4, entries: 4, cell_bytes: 64 };
    let (mut node, mut journal) = (NodeBox::new(NextIdx::new(0), room, SETTINGS, Mode::Unkeyed).unwrap(), Vec::new());
    let idx = node.counters.alloc_idx().unwrap();
    node.counters.apply_batch(&[change(idx.get(), 0, 300)]).unwrap();
    node.commit(1, &inserts(vec![insert(5, 0, 3, b"five"), insert(4, 0, 3, b"four")]), &mut journal).unwrap();
    let first = journal.len();
    node.commit(2, &NurseryDelta::default(), &mut journal).unwrap();
    assert_eq!(journal.len(), first);
    assert_eq!(node.commit(3, &inserts(vec![insert(5, 0, 3, b"")]), &mut journal), Err(Refusal::Present));
    assert_eq!(journal.len(), first);
    node.commit(4, &NurseryDelta { inserts: vec![], removes: vec![HashBytes([5; 32])] }, &mut journal).unwrap();

    let whole = NodeBox::restore(&node.counters.serialize(), &journal, room, SETTINGS, Mode::Unkeyed).unwrap();
    assert_eq!((whole.journal.applied, whole.journal.place, whole.journal.refusal), (2, journal.len(), None));
    assert_eq!(whole.node_box.nursery.snapshot_entries(), node.nursery.snapshot_entries());
    assert_eq!(whole.node_box.counters.serialize(), node.counters.serialize());

    let (cut, end) =
        read_journal(&Mode::Unkeyed, &journal[..journal.len() - 1], room.entries, room.cell_bytes, SETTINGS.delay).unwrap();
    assert_eq!((end.applied, end.place, end.refusal), (1, first, Some(Refusal::ShortRecord)));
    assert_eq!(cut.len(), 2);
}
