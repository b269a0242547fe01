//! Each refusal is reached, with its number, zeros beside it and nothing changed.
use std::borrow::Cow;

use selvaigo::{
    CellNursery, CounterTransition, Counters, DeltaItems, HashBytes, Idx, JournalError, Mode, NextIdx, NodeBox, NurseryDelta,
    NurseryEntryRecord, NurseryParts, RefCount, Refusal, RestoreError, Room, Settings, ShrinkSettings, decode_record,
    encode_items, encode_record, hash, raw, read_journal, sys,
};

const ROOM: Room = Room { counts: 1, entries: 1, cell_bytes: 1 };
const SETTINGS: Settings = Settings::STANDARD;
const SHRINK: ShrinkSettings = ShrinkSettings::STANDARD;
const DELAY: u64 = SETTINGS.delay;

fn change(idx: u64, old_raw: u64, new_raw: u64) -> CounterTransition {
    CounterTransition { idx: Idx::new(idx), old_raw, new_raw }
}

fn insert(tag: u8, data: Vec<u8>) -> NurseryDelta {
    let entry = NurseryEntryRecord { hash: HashBytes([tag; 32]), idx: Idx::new(1), born_round: 0, data };
    NurseryDelta { inserts: vec![entry], removes: vec![] }
}

// Counters at next 2 with live total 1 and count 2 at index 0, in a table of so much room.
fn counters(room: usize) -> Counters {
    let mut c = Counters::new(NextIdx::new(2), room, SHRINK).unwrap();
    c.apply_batch(&[change(0, 0, 2)]).unwrap();
    c
}

fn refused(batch: &[CounterTransition], room: usize) -> u8 {
    let mut c = counters(room);
    let before = c.clone();
    let refusal = c.apply_batch(batch).unwrap_err();
    assert_eq!((c.state(), c.counts()), (before.state(), before.counts()));
    refusal.number()
}

// The number that a snapshot of that next index, live total, first payload and rest is refused with.
fn read(version: u8, [next, live]: [u64; 2], payload: &[u8], rest: &[u8], room: usize) -> u8 {
    let mut snapshot = vec![version];
    snapshot.extend_from_slice(&next.to_le_bytes());
    snapshot.extend_from_slice(&live.to_le_bytes());
    snapshot.extend_from_slice(&(payload.len() as u64).to_le_bytes());
    snapshot.extend_from_slice(payload);
    snapshot.extend_from_slice(&[vec![8], vec![0; 15]].concat().repeat(7));
    snapshot.extend_from_slice(rest);
    let (mut state, mut counts) = ([7; sys::STATE], vec![9; 2 * room]);
    let refusal = raw::deserialize_trusted(&snapshot, SHRINK, &mut state, &mut counts).unwrap_err();
    assert!(state == [7; sys::STATE] && counts == vec![9; 2 * room]);
    assert_eq!(Counters::deserialize_trusted(&snapshot, room, SHRINK).unwrap_err(), refusal);
    refusal.number()
}

fn large(idx: u64, count: u64) -> Vec<u8> {
    [idx.to_le_bytes(), count.to_le_bytes()].concat()
}

// A record of that stated length and payload, with the right hash.
fn record(len: u64, payload: &[u8]) -> Vec<u8> {
    let hashed = [&len.to_le_bytes()[..], payload].concat();
    [&hash(&hashed)[..], &hashed].concat()
}

#[test]
fn numbers_and_words() {
    let numbers: Vec<u8> = (1..=23).chain([25]).collect();
    assert_eq!(Refusal::ALL.map(Refusal::number), numbers[..]);
    for refusal in Refusal::ALL {
        assert_eq!(Refusal::from_number(refusal.number()), Some(refusal));
        assert_eq!(refusal.to_string(), refusal.word());
    }
    assert!((0..=u8::MAX).all(|number| Refusal::from_number(number).is_some() == numbers.contains(&number)));
    assert_eq!((Refusal::OffTotal.number(), Refusal::OffTotal.to_string().as_str()), (4, "off total"));
}

#[test]
fn the_counters_one_to_six() {
    let mut c = Counters::new(NextIdx::new(u64::MAX), 0, SHRINK).unwrap();
    assert_eq!(c.alloc_idx().unwrap_err().number(), 1);
    assert_eq!(c.next_idx().get(), u64::MAX);
    assert_eq!(counters(1).get(Idx::new(2)).unwrap_err().number(), 2);
    assert_eq!(refused(&[change(2, 0, 1)], 1), 2);
    assert_eq!(refused(&[change(0, 2, 3), change(0, 2, 4)], 1), 3);
    assert_eq!(refused(&[change(0, 2, 0), change(1, 1, 0)], 1), 4);
    assert_eq!(refused(&[change(0, 3, 4)], 1), 5);
    assert_eq!(refused(&[change(1, 0, 2)], 1), 6);
}

#[test]
fn snapshots_six_to_eleven() {
    let empty = [0; 8];
    assert_eq!(read(1, [1, 1], &empty, &large(0, 257), 0), 6);
    assert_eq!(read(0, [0, 0], &empty, &[], 0), 7);
    assert_eq!(Counters::deserialize_trusted(&[], 0, SHRINK).unwrap_err().number(), 8);
    assert_eq!(Counters::deserialize_trusted(&[1; 16], 0, SHRINK).unwrap_err().number(), 8);
    assert_eq!(read(1, [0, 0], &[0; 9], &[], 0), 9);
    assert_eq!(read(1, [1, 1], &empty, &[0; 15], 1), 10);
    assert_eq!(read(1, [1, 1], &empty, &large(0, 256), 1), 10);
    assert_eq!(read(1, [0, 1], &empty, &large(0, 257), 1), 11);
}

#[test]
fn fewer_cells_than_counts_twenty_five() {
    assert_eq!(refused(&[change(1, 1, 2)], 2), 25);
    assert_eq!(read(1, [1, 0], &[0; 8], &large(0, 257), 1), 25);
}

#[test]
fn the_nursery_twelve_to_fifteen() {
    let mut n = CellNursery::new(1, 2, DELAY).unwrap();
    n.apply_commit(&insert(1, vec![1])).unwrap();
    let before = n.clone().into_parts();
    assert_eq!(n.apply_commit(&insert(1, vec![])).unwrap_err().number(), 12);
    assert_eq!(n.apply_commit(&insert(2, vec![])).unwrap_err().number(), 13);
    assert_eq!(n.apply_commit(&insert(2, vec![0; 65_536])).unwrap_err().number(), 14);
    assert_eq!(n.drain_promotable_into(100, &mut [0; 42]).unwrap_err().number(), 15);
    assert_eq!(n.snapshot_entries_into(&mut [0; 46]).unwrap_err().number(), 15);
    assert_eq!(n.into_parts(), before);
    assert_eq!(counters(1).serialize_into(&mut [0; 166]).unwrap_err().number(), 15);
    let mut out = [7; 55];
    assert_eq!(encode_items(&Mode::Unkeyed, 0, &DeltaItems::borrowed(0, 0, &[]), &mut out).unwrap_err().number(), 15);
    assert_eq!(out, [7; 55]);
    assert_eq!(encode_record(&Mode::Unkeyed, 0, &insert(2, vec![0; 65_536])).unwrap_err().number(), 14);
}

#[test]
fn records_sixteen_to_nineteen() {
    let number = |bytes: &[u8]| decode_record(&Mode::Unkeyed, bytes).unwrap_err().number();
    assert_eq!(number(&[0; 39]), 16);
    assert_eq!(number(&record(17, &[0; 16])), 16);
    assert_eq!(number(&record(u64::MAX - 7, &[])), 17);
    let mut wrong = record(16, &[0; 16]);
    wrong[0] ^= 1;
    assert_eq!(number(&wrong), 18);
    assert_eq!(number(&record(15, &[0; 15])), 19);
    assert_eq!(number(&record(16, &[0, 0, 0, 0, 0, 0, 0, 0, 1, 0, 0, 0, 0, 0, 0, 0])), 19);
}

#[test]
fn records_twenty_two() {
    let number = |bytes: &[u8]| decode_record(&Mode::Unkeyed, bytes).unwrap_err().number();
    assert_eq!(number(&record(17, &[0; 17])), 22);
    assert_eq!(number(&record(48, &[0; 48])), 22);
    // After all others.
    let mut wrong = record(17, &[0; 17]);
    assert_eq!(number(&wrong[..56]), 16);
    wrong[56] ^= 1;
    assert_eq!(number(&wrong), 18);
    assert_eq!(number(&record(17, &[0, 0, 0, 0, 0, 0, 0, 0, 1, 0, 0, 0, 0, 0, 0, 0, 0])), 19);
    // What a call is lent may go on after its items.
    let items = DeltaItems::borrowed(0, 1, &[1; 33]);
    let mut out = [7; 89];
    let (len, _) = encode_items(&Mode::Unkeyed, 0, &items, &mut out).unwrap();
    assert_eq!((len, out[88], decode_record(&Mode::Unkeyed, &out).unwrap().items.bytes.len()), (88, 7, 32));
    assert_eq!(CellNursery::new(0, 0, DELAY).unwrap().apply_items(&items), Ok(()));
}

#[test]
fn journals_twenty_one() {
    // A hash that is wrong, a length that is too far, items that run past theirs, and items that end before it, each behind a record that is taken.
    let mut wrong = record(16, &[0; 16]);
    wrong[0] ^= 1;
    let bad = [(wrong, 18), (record(u64::MAX - 7, &[]), 17), (record(15, &[0; 15]), 19), (record(17, &[0; 17]), 22)];
    for (bad, number) in bad {
        let first = encode_record(&Mode::Unkeyed, 0, &insert(1, vec![1])).unwrap();
        let journal = [first.bytes(), &bad].concat();
        let error = read_journal(&Mode::Unkeyed, &journal, 1, 1, DELAY).unwrap_err();
        let damaged = error.damaged().unwrap();
        assert_eq!((error, error.number()), (JournalError::Damaged(damaged), 21));
        assert_eq!((damaged.number(), damaged.refusal.number()), (21, number));
        assert_eq!((damaged.records, damaged.place), (1, first.bytes().len()));
        let restored = NodeBox::restore(&counters(1).serialize(), &journal, ROOM, SETTINGS, Mode::Unkeyed).unwrap_err();
        assert_eq!((restored, restored.number()), (RestoreError::Journal(damaged), 21));
    }
    let restored = NodeBox::restore(&[], &[0; 40], ROOM, SETTINGS, Mode::Unkeyed).unwrap_err();
    assert_eq!((restored, restored.number()), (RestoreError::Snapshot(Refusal::TornSnapshot), 8));
}

#[test]
fn settings_twenty_three() {
    let (none, long) = (Settings { shrink_base: 0, ..SETTINGS }, Settings { delay: 10_001, ..SETTINGS });
    for bad in [none, long] {
        assert_eq!(NodeBox::new(NextIdx::new(0), ROOM, bad, Mode::Unkeyed).unwrap_err().number(), 23);
        // Before a snapshot and a journal that are refused too.
        let restored = NodeBox::restore(&[], &record(15, &[0; 15]), ROOM, bad, Mode::Unkeyed).unwrap_err();
        assert_eq!((restored, restored.number()), (RestoreError::Setting(Refusal::BadSetting), 23));
    }
    assert_eq!(Counters::new(NextIdx::new(0), 1, none.shrink()).unwrap_err().number(), 23);
    assert_eq!(CellNursery::new(1, 1, long.delay).unwrap_err().number(), 23);
}

#[test]
fn broken_tables() {
    let (state, mut counts) = counters(2).into_parts();
    assert!(Counters::from_parts(state, counts.clone()).is_ok());
    let mut no_cell = state;
    no_cell[1] = 0;
    assert_eq!(Counters::from_parts(no_cell, counts.clone()).unwrap_err(), Refusal::Broken);
    counts[3] = 1;
    assert_eq!(raw::get(&state, &counts, Idx::new(0)), Err(Refusal::Broken));
    assert_eq!(raw::serialized_len(&state, &counts), Err(Refusal::Broken));
    assert_eq!(raw::serialize(&state, &counts, &mut [0; 999]), Err(Refusal::Broken));
    let mut changed = state;
    assert_eq!(raw::apply_batch(&mut changed, &mut counts, &[1, 0, 2]), Err(Refusal::Broken));
    assert_eq!(raw::shrink_if_needed(&mut changed, &counts, 0), Err(Refusal::Broken));
    assert_eq!(changed, state);
    assert_eq!(Counters::from_parts(state, counts).unwrap_err(), Refusal::Broken);

    let mut n = CellNursery::new(2, 2, DELAY).unwrap();
    n.apply_commit(&insert(1, vec![1])).unwrap();
    let parts = n.into_parts();
    // The last three: a waiting row that names no entry, one with another round than its entry's, two that name the same one.
    let breaks: [fn(&mut NurseryParts); 7] = [
        |p| p.nursery[2] = 0,
        |p| p.entries[8] = 1,
        |p| p.waiting[9] = 1,
        |p| p.cells[1] = 1,
        |p| p.waiting[4] = 2,
        |p| p.entries[5] = 1,
        |p| {
            p.waiting.copy_within(0..5, 5);
            p.nursery[1] = 2;
        },
    ];
    for breaks in breaks {
        let mut broken = parts.clone();
        breaks(&mut broken);
        assert_eq!(CellNursery::from_parts(broken).unwrap_err(), Refusal::Broken);
    }
    let NurseryParts { nursery, mut entries, cells, .. } = parts;
    entries[8] = 1;
    assert_eq!(raw::get_idx(&nursery, &entries, &HashBytes([1; 32])), Err(Refusal::Broken));
    assert_eq!(raw::get_data(&nursery, &entries, &cells, &HashBytes([1; 32])), Err(Refusal::Broken));
    assert_eq!(raw::snapshot_entries(&nursery, &entries, &cells, &mut [0; 99]), Err(Refusal::Broken));
}

#[test]
fn what_is_no_batch_and_no_delta() {
    let (mut state, mut counts) = counters(2).into_parts();
    assert_eq!(raw::apply_batch(&mut state, &mut counts, &[1, 0]), Err(Refusal::Broken));
    let mut n = CellNursery::new(2, 2, DELAY).unwrap();
    for wide in [false, true] {
        let short = DeltaItems { wide, inserts: 1, removes: 0, bytes: Cow::Borrowed(&[0; 45]) };
        assert_eq!(n.apply_items(&short), Err(Refusal::Broken));
        assert_eq!(short.to_delta(), Err(Refusal::Broken));
    }
}

#[test]
fn made_and_read_in_over_anything() {
    let (mut state, mut counts) = ([7; sys::STATE], vec![7; 5]);
    raw::new(NextIdx::new(3), SHRINK, &mut state, &mut counts).unwrap();
    assert_eq!(Counters::from_parts(state, counts.into()).unwrap().next_idx(), NextIdx::new(3));
    let (mut state, mut counts) = ([7; sys::STATE], vec![7; 5]);
    assert_eq!(raw::deserialize_trusted(&counters(1).serialize(), SHRINK, &mut state, &mut counts), Ok(()));
    assert_eq!(Counters::from_parts(state, counts.into()).unwrap().get(Idx::new(0)), Ok(RefCount::new(2)));
    let other = NurseryParts { nursery: [7; sys::NURSERY], entries: [7; 9].into(), waiting: [7; 6].into(), cells: [7; 3].into() };
    let mut p = other.clone();
    raw::nursery_new(DELAY, &mut p.nursery, &mut p.entries, &mut p.waiting, &mut p.cells).unwrap();
    assert!(CellNursery::from_parts(p).unwrap().is_empty());
    let mut p = other;
    let journal = [encode_record(&Mode::Unkeyed, 0, &insert(1, vec![1])).unwrap().bytes(), &[0; 39]].concat();
    let end = raw::read_journal(None, &journal, DELAY, &mut p.nursery, &mut p.entries, &mut p.waiting, &mut p.cells).unwrap();
    assert_eq!((end.applied, end.refusal.map(Refusal::number)), (1, Some(16)));
    assert_eq!(CellNursery::from_parts(p).unwrap().len(), 1);
}

#[test]
fn values_beside_a_refusal_are_zeros() {
    let (state, counts) = counters(1).into_parts();
    let mut count = [9];
    // SAFETY: a slice and arrays.
    let answer = unsafe { sys::selvaigo_get(&state, counts.as_ptr(), counts.len(), 2, &mut count) };
    assert_eq!((answer, count), (2, [0]));
    let (mut figures, mut hash) = ([9; 8], [9; 32]);
    // SAFETY: a slice and arrays.
    let answer = unsafe { sys::selvaigo_decode_record(0, [].as_ptr(), 0, [0; 39].as_ptr(), 39, &mut figures, &mut hash) };
    assert_eq!((answer, figures, hash), (16, [0; 8], [0; 32]));
    // A record that would be taken, and a damaged one.
    let journal = [record(16, &[0; 16]), record(15, &[0; 15])].concat();
    let (mut nursery, mut read) = ([9; sys::NURSERY], [9; 3]);
    let (mut entries, mut waiting, mut cells) = ([9; 8], [9; 5], [9; 1]);
    // SAFETY: slices and arrays.
    let answer = unsafe {
        sys::selvaigo_read_journal(
            0,
            [].as_ptr(),
            0,
            journal.as_ptr(),
            journal.len(),
            DELAY,
            &mut nursery,
            entries.as_mut_ptr(),
            entries.len(),
            waiting.as_mut_ptr(),
            waiting.len(),
            cells.as_mut_ptr(),
            cells.len(),
            &mut read,
        )
    };
    assert_eq!((answer, read), (21, [0; 3]));
    assert_eq!((nursery, entries, waiting, cells), ([9; sys::NURSERY], [9; 8], [9; 5], [9; 1]));
    // A conversion whose first output, or whose second, is too short by a byte.
    let journal = record(17, &[0; 17]);
    for (out_len, dropped_len) in [(55, 16), (56, 15)] {
        let (mut out, mut dropped, mut lengths) = ([9; 57], [9; 17], [9; 2]);
        // SAFETY: slices and arrays.
        let answer = unsafe {
            sys::selvaigo_convert_journal(
                journal.as_ptr(),
                journal.len(),
                out.as_mut_ptr(),
                out_len,
                dropped.as_mut_ptr(),
                dropped_len,
                &mut lengths,
            )
        };
        assert_eq!((answer, lengths, out, dropped), (15, [0; 2], [9; 57], [9; 17]));
    }
}

#[test]
#[should_panic(expected = "more room than a slice can have")]
fn room_is_counted_with_checks() {
    let _ = CellNursery::new(usize::MAX / 4, 0, DELAY);
}
