//! Settings (document 02, P5): the worked lines, what is refused with 23 and changes nothing, records whose settings are no settings, calls that leave them,
//! boxes that are read in, and calls made up at random on boxes with settings made up at random, beside a plain model.
use std::collections::BTreeMap;
use std::error::Error;

use selvaigo::{
    CellNursery, CounterTransition, Counters, DeltaItems, HashBytes, Idx, JournalError, Mode, NextIdx, NodeBox, NurseryDelta,
    NurseryEntryRecord, NurseryParts, PromotedCell, Refusal, RestoreError, Room, Settings, ShrinkSettings,
    adjust_shrink_threshold, encode_record, raw, read_journal, scan_journal, should_shrink, sys,
};

mod junk;
mod worked;
use junk::{JUNK, junk};
use worked::{insert, remove, tagged, three};

const MAX: u64 = u64::MAX;
const LAST: u32 = u32::MAX;

/// Delays in their range and outside it; the last two would be in it with fewer bits.
const DELAYS: [u64; 7] = [1, 2, 99, 100, 101, 9_999, 10_000];
const NO_DELAYS: [u64; 6] = [0, 10_001, 10_002, MAX, 1 << 32 | 100, 1 << 16 | 1];

/// Base, maximum and good save, in their ranges and outside them.
const SHRINKS: [ShrinkSettings; 7] = [
    ShrinkSettings::STANDARD,
    shrink(5, 5, 0),
    shrink(1, 1, 1),
    shrink(10, 35, 7),
    shrink(1, MAX, MAX),
    shrink(MAX, MAX, 0),
    shrink(MAX - 1, MAX, MAX),
];
const NO_SHRINKS: [ShrinkSettings; 7] = [
    shrink(0, 5, 7),
    shrink(6, 5, 7),
    shrink(0, 0, 0),
    shrink(1, 0, 0),
    shrink(0, MAX, MAX),
    shrink(MAX, MAX - 1, MAX),
    shrink(1 << 32 | 6, 1 << 32 | 5, 7),
];

const fn shrink(base: u64, max: u64, good_save: u64) -> ShrinkSettings {
    ShrinkSettings { base, max, good_save }
}

const fn settings(delay: u64, shrink: ShrinkSettings) -> Settings {
    Settings { delay, shrink_base: shrink.base, shrink_max: shrink.max, good_save: shrink.good_save }
}

fn change(idx: u64, old_raw: u64, new_raw: u64) -> CounterTransition {
    CounterTransition { idx: Idx::new(idx), old_raw, new_raw }
}

fn number<T>(answer: Result<T, Refusal>) -> u8 {
    answer.map_or_else(Refusal::number, |_| 0)
}

/// Counters at next 4 with live total 2, count 2 at index 0 and 300 at index 3.
fn counters(settings: ShrinkSettings) -> Counters {
    let mut c = Counters::new(NextIdx::new(4), 4, settings).unwrap();
    c.apply_batch(&[change(0, 0, 2), change(3, 0, 300)]).unwrap();
    c
}

/// A nursery with an entry born at 0 and one at 1.
fn nursery(delay: u64) -> CellNursery {
    let mut n = CellNursery::new(3, 9, delay).unwrap();
    n.apply_commit(&insert(1, 10, 0, &[0xaa, 0xbb])).unwrap();
    n.apply_commit(&insert(2, 11, 1, &[0xcc])).unwrap();
    n
}

// ---- what a box is made or read in with

/// A call that makes or reads in counters, over words of junk: the record after it, or the refusal, which leaves all as it was.
fn over_junk<T>(
    call: impl FnOnce(&mut [u64; sys::STATE], &mut [u64]) -> Result<T, Refusal>,
) -> Result<[u64; sys::STATE], Refusal> {
    let (mut state, mut counts) = ([JUNK; sys::STATE], [JUNK; 5]);
    let answer = call(&mut state, &mut counts);
    assert!(answer.is_ok() || state == [JUNK; sys::STATE] && counts == [JUNK; 5], "a refusal changes something");
    answer.map(|_| Counters::from_parts(state, counts.into()).unwrap().into_parts().0)
}

/// The answer and the value beside it, as they come.
fn loaded(snapshot: &[u8], s: ShrinkSettings) -> (u8, [u64; 1]) {
    let (mut state, mut counts, mut old_total) = ([JUNK; sys::STATE], [JUNK; 5], [9]);
    // SAFETY: slices and arrays, none of which overlaps another.
    let answer = unsafe {
        sys::selvaigo_load_snapshot(
            snapshot.as_ptr(),
            snapshot.len(),
            s.base,
            s.max,
            s.good_save,
            &mut state,
            counts.as_mut_ptr(),
            counts.len(),
            &mut old_total,
        )
    };
    (answer, old_total)
}

/// The number with which counters are made, which each call of them gives that could be taken otherwise.
fn judged(s: ShrinkSettings) -> u8 {
    let snapshot = counters(ShrinkSettings::STANDARD).serialize();
    let words = [
        over_junk(|state, counts| raw::new(NextIdx::new(4), s, state, counts)),
        over_junk(|state, counts| raw::deserialize_trusted(&snapshot, s, state, counts)),
        over_junk(|state, counts| raw::load_snapshot(&snapshot, s, state, counts)),
    ];
    let owned = [
        Counters::new(NextIdx::new(4), 2, s),
        Counters::deserialize_trusted(&snapshot, 2, s),
        Counters::load_snapshot(&snapshot, 2, s).map(|loaded| loaded.counters),
    ];
    let made = number(words[0]);
    for (words, owned) in words.into_iter().zip(owned) {
        assert_eq!((number(words), owned.as_ref().err()), (made, words.as_ref().err()));
        if let (Ok(state), Ok(c)) = (words, owned) {
            assert_eq!(c.state(), &state);
            // The threshold starts at the base.
            assert_eq!(state[12..], [s.base, s.base, s.max, s.good_save]);
            assert_eq!((c.settings(), c.maintenance().min_alive_removed_before_shrink), (s, s.base));
        }
    }
    assert_eq!(loaded(&snapshot, s), (made, [if made == 0 { 2 } else { 0 }]));
    assert_eq!(number(s.check()), made);
    made
}

fn nursery_over_junk<T>(call: impl FnOnce(&mut NurseryParts) -> Result<T, Refusal>) -> Result<[u64; sys::NURSERY], Refusal> {
    let mut p = junk();
    let answer = call(&mut p);
    assert!(answer.is_ok() || p == junk(), "a refusal changes something");
    answer.map(|_| CellNursery::from_parts(p).unwrap().into_parts().nursery)
}

fn read(journal: &[u8], delay: u64) -> (u8, [u64; 3]) {
    let (answer, read, p) = junk::read(0, &[], journal, delay);
    assert!(answer == 0 || p == junk(), "a refusal changes something");
    (answer, read)
}

/// The same of a nursery.
fn delay_judged(delay: u64) -> u8 {
    let journal = three().concat();
    let words = [
        nursery_over_junk(|p| raw::nursery_new(delay, &mut p.nursery, &mut p.entries, &mut p.waiting, &mut p.cells)),
        nursery_over_junk(|p| {
            raw::read_journal(None, &journal, delay, &mut p.nursery, &mut p.entries, &mut p.waiting, &mut p.cells)
        }),
    ];
    let owned = [
        CellNursery::new(3, 9, delay),
        read_journal(&Mode::Unkeyed, &journal, 3, 9, delay).map(|(nursery, _)| nursery).map_err(|error| {
            let JournalError::Setting(refusal) = error else { panic!("{error}") };
            assert_eq!((error.number(), error.damaged(), error.to_string().as_str()), (23, None, "bad setting"));
            refusal
        }),
    ];
    let made = number(words[0]);
    for (words, owned) in words.into_iter().zip(owned) {
        assert_eq!((number(words), owned.as_ref().err()), (made, words.as_ref().err()));
        if let (Ok(words), Ok(n)) = (words, owned) {
            assert_eq!((n.nursery(), n.delay(), words[3]), (&words, delay, delay));
        }
    }
    assert_eq!(read(&journal, delay), (made, if made == 0 { [3, 295, 0] } else { [0; 3] }));
    made
}

#[test]
fn ranges() {
    assert_eq!([0, 1, 10_000, 10_001].map(delay_judged), [23, 0, 0, 23]);
    assert_eq!([shrink(0, 5, 7), shrink(6, 5, 7), shrink(0, 0, 7), shrink(1, 0, 7)].map(judged), [23; 4]);
    assert_eq!([shrink(5, 5, 7), shrink(1, MAX, MAX)].map(judged), [0; 2]);
    assert_eq!((DELAYS.map(delay_judged), SHRINKS.map(judged)), ([0; 7], [0; 7]));
    assert_eq!((NO_DELAYS.map(delay_judged), NO_SHRINKS.map(judged)), ([23; 6], [23; 7]));
}

#[test]
fn the_standard_ones() {
    let s = Settings::default();
    assert_eq!((s, s.check()), (Settings::STANDARD, Ok(())));
    assert_eq!((s.delay, s.shrink_base, s.shrink_max, s.good_save), (100, 131_072, 2_097_152, 1_048_576));
    assert_eq!((s.shrink(), ShrinkSettings::from(s)), (ShrinkSettings::default(), ShrinkSettings::STANDARD));
    assert_eq!(settings(s.delay, s.shrink()), s);
}

#[test]
fn before_anything_else() {
    let snapshot = counters(ShrinkSettings::STANDARD).serialize();
    let with = |at: usize, byte: u8| {
        let mut other = snapshot.clone();
        other[at] = byte;
        other
    };
    let cut = snapshot[..snapshot.len() - 1].to_vec();
    // Empty, of another version, torn, a bitmap without its bucket, a large entry without its last byte, an index that wasn't handed out, fewer cells than counts.
    let snapshots = [
        (vec![], 8),
        (with(0, 2), 7),
        (snapshot[..99].to_vec(), 8),
        (with(25, 2), 9),
        (cut, 10),
        (with(1, 3), 11),
        (with(9, 1), 25),
    ];
    for (bytes, wanted) in &snapshots {
        let all = |s| {
            let words = over_junk(|state, counts| raw::deserialize_trusted(bytes, s, state, counts));
            let owned = Counters::deserialize_trusted(bytes, 2, s);
            assert_eq!(words.as_ref().err(), owned.as_ref().err());
            let loads = over_junk(|state, counts| raw::load_snapshot(bytes, s, state, counts));
            assert_eq!(number(loads), loaded(bytes, s).0);
            (number(words), number(loads))
        };
        assert_eq!(all(shrink(5, 5, 5)), (*wanted, if *wanted == 25 { 0 } else { *wanted }));
        NO_SHRINKS.iter().for_each(|s| assert_eq!(all(*s), (23, 23)));
    }
    // A table without room.
    let full = |s: ShrinkSettings| number(raw::deserialize_trusted(&snapshot, s, &mut [JUNK; sys::STATE], &mut [JUNK; 3]));
    assert_eq!((full(shrink(5, 5, 5)), full(shrink(0, 5, 5))), (6, 23));

    // A damaged record in front, behind others, and behind a delta that would be refused; a cut, and a delta that is refused.
    let [first, second, third] = three();
    let mut wrong = second.clone();
    wrong[50] ^= 1;
    let journals = [
        (wrong.clone(), 21),
        ([&first[..], &wrong, &third].concat(), 21),
        ([&first[..], &first, &wrong].concat(), 21),
        (first[..50].to_vec(), 0),
        ([&first[..], &first].concat(), 0),
        (vec![], 0),
    ];
    for (journal, wanted) in &journals {
        assert_eq!(read(journal, 1).0, *wanted);
        assert_eq!(
            read_journal(&Mode::Unkeyed, journal, 3, 9, 1).map_err(|error| error.damaged()).err(),
            scan_journal(&Mode::Unkeyed, journal).damaged().map(Some)
        );
        for delay in NO_DELAYS {
            assert_eq!(read(journal, delay), (23, [0; 3]));
            assert_eq!(
                read_journal(&Mode::Unkeyed, journal, 3, 9, delay).unwrap_err(),
                JournalError::Setting(Refusal::BadSetting)
            );
        }
    }

    // Room that no slice can have, which would be a panic.
    assert_eq!(number(Counters::new(NextIdx::new(0), usize::MAX, shrink(0, 5, 5))), 23);
    assert_eq!(number(Counters::deserialize_trusted(&snapshot, usize::MAX, shrink(0, 5, 5))), 23);
    assert_eq!(number(Counters::load_snapshot(&snapshot, usize::MAX, shrink(0, 5, 5)).map(|_| ())), 23);
    assert_eq!(number(CellNursery::new(usize::MAX, usize::MAX, 0)), 23);
    assert_eq!(read_journal(&Mode::Unkeyed, &[], usize::MAX, usize::MAX, 0).unwrap_err().number(), 23);
}

#[test]
fn both_halves_are_judged_before_either_is_made() {
    // With this room making either half is a panic.
    let none = Room { counts: usize::MAX, entries: usize::MAX, cell_bytes: usize::MAX };
    let some = Room { counts: 4, entries: 3, cell_bytes: 9 };
    let (snapshot, journal) = (counters(ShrinkSettings::STANDARD).serialize(), three().concat());
    let good = Settings::STANDARD;
    let delays = NO_DELAYS.map(|delay| Settings { delay, ..good });
    let shrinks = NO_SHRINKS.map(|s| settings(good.delay, s));
    let both = settings(0, shrink(0, 5, 7));
    for bad in delays.into_iter().chain(shrinks).chain([both]) {
        assert_eq!(bad.check(), Err(Refusal::BadSetting));
        for room in [none, some] {
            assert_eq!(NodeBox::new(NextIdx::new(0), room, bad, Mode::Unkeyed).unwrap_err(), Refusal::BadSetting);
            for (snapshot, journal) in
                [(&snapshot, &journal), (&vec![], &journal), (&snapshot, &vec![0; 40]), (&vec![], &vec![0; 40])]
            {
                let error = NodeBox::restore(snapshot, journal, room, bad, Mode::Unkeyed).unwrap_err();
                assert_eq!((error, error.number()), (RestoreError::Setting(Refusal::BadSetting), 23));
                assert_eq!(error.to_string(), "settings refused with 23");
                assert_eq!(error.source().unwrap().to_string(), "bad setting");
            }
        }
    }
    assert_eq!(RestoreError::from(Refusal::BadSetting), RestoreError::from(JournalError::Setting(Refusal::BadSetting)));
    assert_eq!(NodeBox::restore(&[], &[0; 40], some, good, Mode::Unkeyed).unwrap_err().number(), 8);
    assert_eq!(NodeBox::restore(&snapshot, &[0; 40], some, good, Mode::Unkeyed).unwrap_err().number(), 21);
    assert!(
        NodeBox::restore(&snapshot, &journal, some, good, Mode::Unkeyed).is_ok()
            && NodeBox::new(NextIdx::new(0), some, good, Mode::Unkeyed).is_ok()
    );
}

// ---- the delay

/// How many cells a drain at a round gives in each of the three forms, of a nursery with one entry.
fn due(delay: u64, born_round: u32, round: u32) -> usize {
    let mut n = CellNursery::new(1, 2, delay).unwrap();
    n.apply_commit(&insert(1, 7, born_round, &[8, 9])).unwrap();
    drained(&mut n, round).len()
}

/// What a drain hands out, in each of the three forms.
fn drained(n: &mut CellNursery, round: u32) -> Vec<(HashBytes, u64, Vec<u8>)> {
    let (mut p, mut other) = (n.clone().into_parts(), n.clone());
    let mut out = vec![0; 42 * n.len() + n.cell_bytes()];
    let len = raw::drain_promotable(&mut p.nursery, &p.entries, &mut p.waiting, &p.cells, round, &mut out).unwrap();
    let checked: Vec<_> = PromotedCell::all(&out[..len]).map(|cell| (cell.hash, cell.idx.get(), cell.data.to_vec())).collect();
    let mut held = Vec::new();
    other.drain_promotable(round, |hash, idx, data| held.push((hash, idx.get(), data.to_vec())));
    out.fill(0);
    assert_eq!(n.drain_promotable_into(round, &mut out), Ok(len));
    let written: Vec<_> = PromotedCell::all(&out[..len]).map(|cell| (cell.hash, cell.idx.get(), cell.data.to_vec())).collect();
    assert_eq!((&checked, &checked), (&held, &written));
    assert!(other.into_parts() == p && n.clone().into_parts() == p, "the forms differ");
    held
}

#[test]
fn worked_delays() {
    assert_eq!((due(10_000, 0, 9_999), due(10_000, 0, 10_000), due(10_000, 1, 10_000), due(10_000, 1, 10_001)), (0, 1, 0, 1));
    assert_eq!((due(1, 0, 0), due(1, 0, 1), due(1, 1, 1), due(1, 1, 2)), (0, 1, 0, 1));
    assert_eq!((due(100, 5, 104), due(100, 5, 105)), (0, 1));
    // Born in the last round, it is never due.
    assert_eq!((due(1, LAST, LAST), due(1, LAST, 0), due(1, LAST - 1, LAST), due(1, LAST - 1, LAST - 1)), (0, 0, 1, 0));
    for delay in DELAYS {
        let rounds = delay as u32;
        assert_eq!((due(delay, 0, 0), due(delay, 0, rounds - 1), due(delay, 0, rounds), due(delay, 0, LAST)), (0, 0, 1, 1));
        assert_eq!((due(delay, LAST - rounds, LAST), due(delay, LAST - rounds + 1, LAST), due(delay, LAST, LAST)), (1, 0, 0));
    }
}

// ---- the thresholds

#[test]
fn worked_thresholds() {
    let s = shrink(10, 35, 7);
    assert_eq!((adjust_shrink_threshold(20, 7, s), adjust_shrink_threshold(10, 6, s)), (10, 20));
    assert_eq!((adjust_shrink_threshold(20, 6, s), adjust_shrink_threshold(35, 6, s)), (35, 35));
    assert_eq!((adjust_shrink_threshold(17, 6, s), adjust_shrink_threshold(18, 6, s)), (34, 35));
    let s = shrink(1, MAX, MAX);
    assert_eq!((adjust_shrink_threshold(1 << 63, 0, s), adjust_shrink_threshold((1 << 63) - 1, 0, s)), (MAX, MAX - 1));
    assert_eq!((adjust_shrink_threshold(MAX, MAX - 1, s), adjust_shrink_threshold(MAX, MAX, s)), (MAX, 1));
    // Any save is good.
    assert_eq!((adjust_shrink_threshold(20, 0, shrink(3, 9, 0)), adjust_shrink_threshold(0, 0, shrink(3, 9, 1))), (3, 0));
    // A threshold above the maximum comes down to it.
    assert_eq!(adjust_shrink_threshold(MAX, 0, shrink(3, 9, 1)), 9);
    // Nothing is refused here.
    assert_eq!((adjust_shrink_threshold(5, 0, shrink(0, 0, 1)), adjust_shrink_threshold(5, 1, shrink(7, 3, 1))), (0, 7));
}

/// A count that rises and falls.
fn there_and_back(c: &mut Counters) {
    c.apply_batch(&[change(0, 1, 2)]).unwrap();
    c.apply_batch(&[change(0, 2, 1)]).unwrap();
}

/// Whether the set of all stored indices is to be shrunk, in both forms.
fn shrinks(c: &mut Counters, saved: u64) -> bool {
    let (mut state, counts) = c.clone().into_parts();
    let checked = raw::shrink_if_needed(&mut state, &counts, saved).unwrap();
    let held = c.shrink_if_needed(saved);
    assert_eq!((held, c.state()), (checked, &state));
    held.alive
}

fn threshold(c: &Counters) -> u64 {
    c.maintenance().min_alive_removed_before_shrink
}

#[test]
fn thresholds_of_a_box() {
    let room = Room { counts: 2, entries: 0, cell_bytes: 0 };
    let mut c = NodeBox::new(NextIdx::new(2), room, settings(1, shrink(10, 35, 7)), Mode::Unkeyed).unwrap().counters;
    c.apply_batch(&[change(0, 0, 1), change(1, 0, 1)]).unwrap();
    assert_eq!(threshold(&c), 10);
    // Nothing is removed, so there is nothing to shrink, whatever is saved.
    assert_eq!((shrinks(&mut c, 6), threshold(&c)), (false, 10));
    let mut after = |saved| {
        there_and_back(&mut c);
        assert!(shrinks(&mut c, saved));
        threshold(&c)
    };
    assert_eq!([6, 6, 6, 7, 6, 8, 0, 0, MAX].map(&mut after), [20, 35, 35, 10, 20, 10, 20, 35, 10]);
    // With a count that stays, as many have to be removed as the threshold says: 10, then 20, then 35, then 35, then 10.
    c.apply_batch(&[change(1, 1, 9)]).unwrap();
    for (removals, saved, next) in [(10, 6, 20), (20, 6, 35), (35, 6, 35), (35, 7, 10), (10, 7, 10)] {
        for _ in 1..removals {
            there_and_back(&mut c);
            assert!(!shrinks(&mut c, saved));
        }
        there_and_back(&mut c);
        assert!(shrinks(&mut c, saved));
        assert_eq!((threshold(&c), c.maintenance().alive_removed_since_shrink), (next, 0));
    }
}

#[test]
fn a_threshold_of_a_record_may_be_any() {
    for (was, saved, is) in [(0, 6, 0), (1 << 63, 6, 35), (MAX, 6, 35), (MAX, 7, 10), (0, 7, 10), (17, 6, 34)] {
        let mut c = Counters::new(NextIdx::new(1), 1, shrink(10, 35, 7)).unwrap();
        c.apply_batch(&[change(0, 0, 1)]).unwrap();
        there_and_back(&mut c);
        let (mut state, counts) = c.into_parts();
        state[12] = was;
        let mut c = Counters::from_parts(state, counts).unwrap();
        assert!(shrinks(&mut c, saved));
        assert_eq!((threshold(&c), c.settings()), (is, shrink(10, 35, 7)));
    }
    // 2^63 doubled, in a box that has no lower maximum.
    let mut c = Counters::new(NextIdx::new(1), 1, shrink(1 << 63, MAX, 1)).unwrap();
    c.apply_batch(&[change(0, 0, 1)]).unwrap();
    there_and_back(&mut c);
    assert!(shrinks(&mut c, 0));
    assert_eq!(threshold(&c), MAX);
}

// ---- records that are lent

#[test]
fn a_record_with_no_settings_is_no_state() {
    let (good, mut counts) = counters(ShrinkSettings::STANDARD).into_parts();
    let before = counts.clone();
    for s in NO_SHRINKS {
        let mut state = good;
        state[13..].copy_from_slice(&[s.base, s.max, s.good_save]);
        let bad = state;
        for idx in [0, 1, 4] {
            assert_eq!(raw::get(&state, &counts, Idx::new(idx)), Err(Refusal::Broken));
        }
        // Also a batch that would be refused otherwise, an empty one, and one that is no batch.
        for changes in [&[1, 0, 1][..], &[4, 0, 1], &[], &[1]] {
            assert_eq!(raw::apply_batch(&mut state, &mut counts, changes), Err(Refusal::Broken));
        }
        assert_eq!(raw::shrink_if_needed(&mut state, &counts, 0), Err(Refusal::Broken));
        assert_eq!(raw::serialized_len(&state, &counts), Err(Refusal::Broken));
        let mut out = [7; 999];
        for len in [0, 999] {
            assert_eq!(raw::serialize(&state, &counts, &mut out[..len]), Err(Refusal::Broken));
        }
        assert_eq!(Counters::from_parts(state, counts.clone()).unwrap_err(), Refusal::Broken);
        assert!(state == bad && counts == before && out == [7; 999]);
        // Allocation is lent no table, and checks nothing.
        assert_eq!(raw::alloc_idx(&mut state), Ok(Idx::new(4)));
        assert_eq!((state[0], &state[1..]), (5, &bad[1..]));
        // Making and reading in write over it.
        let mut made = (state, counts.clone());
        raw::new(NextIdx::new(4), SHRINKS[3], &mut made.0, &mut made.1).unwrap();
        assert_eq!(Counters::from_parts(made.0, made.1).unwrap().settings(), SHRINKS[3]);
    }
    // Any others in their ranges are taken, and are those of the record.
    for s in SHRINKS {
        let mut state = good;
        state[13..].copy_from_slice(&[s.base, s.max, s.good_save]);
        let c = Counters::from_parts(state, counts.clone()).unwrap();
        assert_eq!((c.settings(), raw::get(&state, &counts, Idx::new(3)).map(|n| n.get())), (s, Ok(300)));
    }
}

#[test]
fn a_record_with_no_delay_is_no_state() {
    let good = nursery(100).into_parts();
    let (items, none) = (insert(3, 12, 2, &[1]).to_items().unwrap(), DeltaItems::borrowed(0, 0, &[]));
    for delay in NO_DELAYS {
        let mut p = good.clone();
        p.nursery[3] = delay;
        let bad = p.clone();
        // Also a delta that is none, and one without items.
        for items in [&items, &none, &DeltaItems::borrowed(1, 0, &[])] {
            let answer = raw::apply_commit(&mut p.nursery, &mut p.entries, &mut p.waiting, &mut p.cells, items);
            assert_eq!(answer, Err(Refusal::Broken));
        }
        let mut out = [7; 999];
        for (round, len) in [(0, 999), (100, 999), (100, 0), (LAST, 999)] {
            let out = &mut out[..len];
            let answer = raw::drain_promotable(&mut p.nursery, &p.entries, &mut p.waiting, &p.cells, round, out);
            assert_eq!(answer, Err(Refusal::Broken));
        }
        for tag in [1, 9] {
            assert_eq!(raw::get_idx(&p.nursery, &p.entries, &tagged(tag)), Err(Refusal::Broken));
            assert_eq!(raw::get_data(&p.nursery, &p.entries, &p.cells, &tagged(tag)), Err(Refusal::Broken));
        }
        assert_eq!(raw::snapshot_entries(&p.nursery, &p.entries, &p.cells, &mut out), Err(Refusal::Broken));
        assert!(p == bad && out == [7; 999]);
        assert_eq!(CellNursery::from_parts(p.clone()).unwrap_err(), Refusal::Broken);
        raw::nursery_new(7, &mut p.nursery, &mut p.entries, &mut p.waiting, &mut p.cells).unwrap();
        assert_eq!(CellNursery::from_parts(p).unwrap().delay(), 7);
    }
    for delay in DELAYS {
        let mut p = good.clone();
        p.nursery[3] = delay;
        let mut n = CellNursery::from_parts(p).unwrap();
        assert_eq!((n.delay(), drained(&mut n, delay as u32).len(), n.waiting_len()), (delay, 1, 1));
    }
}

/// What the calls that are lent a record with no settings write beside 20.
#[test]
fn values_beside_twenty_are_zeros() {
    let (mut state, counts) = counters(ShrinkSettings::STANDARD).into_parts();
    state[13] = 0;
    let mut p = nursery(100).into_parts();
    p.nursery[3] = 10_001;
    let (mut count, mut shrunk, mut lens, mut idx, mut data) = ([9; 1], [9; 9], [[9; 1]; 4], [9; 2], [9; 3]);
    let [taken, written, given, listed] = &mut lens;
    let (mut out, hash) = ([9; 999], tagged(1).0);
    let (c, n) = (counts.len(), out.len());
    let ([es, ws], cs) = ([p.entries.len(), p.waiting.len()], p.cells.len());
    // SAFETY: slices and arrays; none that is written overlaps another.
    let answers = unsafe {
        [
            sys::selvaigo_get(&state, counts.as_ptr(), c, 0, &mut count),
            sys::selvaigo_shrink_if_needed(&mut state, counts.as_ptr(), c, 0, &mut shrunk),
            sys::selvaigo_serialized_len(&state, counts.as_ptr(), c, taken),
            sys::selvaigo_serialize(&state, counts.as_ptr(), c, out.as_mut_ptr(), n, written),
            sys::selvaigo_drain_promotable(
                &mut p.nursery,
                p.entries.as_ptr(),
                es,
                p.waiting.as_mut_ptr(),
                ws,
                p.cells.as_ptr(),
                cs,
                LAST,
                out.as_mut_ptr(),
                n,
                given,
            ),
            sys::selvaigo_get_idx(&p.nursery, p.entries.as_ptr(), es, &hash, &mut idx),
            sys::selvaigo_get_data(&p.nursery, p.entries.as_ptr(), es, p.cells.as_ptr(), cs, &hash, &mut data),
            sys::selvaigo_snapshot_entries(&p.nursery, p.entries.as_ptr(), es, p.cells.as_ptr(), cs, out.as_mut_ptr(), n, listed),
        ]
    };
    assert_eq!(answers, [20; 8]);
    assert_eq!((count, shrunk, lens, idx, data, out), ([0], [0; 9], [[0]; 4], [0; 2], [0; 3], [9; 999]));
}

// ---- calls leave them

#[test]
fn no_call_changes_them() {
    let s = settings(7, shrink(3, 12, 5));
    let room = Room { counts: 2, entries: 2, cell_bytes: 3 };
    let mut node = NodeBox::new(NextIdx::new(1), room, s, Mode::Unkeyed).unwrap();
    let mut journal = Vec::new();
    let same = |node: &NodeBox| {
        assert_eq!((node.settings(), node.counters.settings(), node.nursery.delay()), (s, s.shrink(), 7));
        assert_eq!((node.counters.state()[13..].to_vec(), node.nursery.nursery()[3]), (vec![3, 12, 5], 7));
    };
    same(&node);
    // Taken and refused.
    assert!(node.counters.alloc_idx().is_ok());
    same(&node);
    for batch in [[change(0, 0, 2)], [change(0, 0, 2)], [change(9, 0, 1)], [change(1, 0, 300)], [change(0, 2, 1)]] {
        _ = node.counters.apply_batch(&batch);
        same(&node);
    }
    for saved in [4, 5, 0, MAX] {
        node.counters.shrink_if_needed(saved);
        same(&node);
    }
    _ = (node.counters.serialize(), node.counters.serialize_into(&mut []), node.counters.get(Idx::new(0)));
    same(&node);
    for delta in [insert(1, 10, 0, &[1, 2]), insert(1, 10, 0, &[]), insert(2, 11, 1, &[1, 2]), remove(9), insert(3, 12, 0, &[1])]
    {
        _ = node.commit(1, &delta, &mut journal);
        same(&node);
    }
    for round in [6, 7, 8, LAST] {
        _ = node.nursery.drain_promotable_into(round, &mut []);
        same(&node);
        node.nursery.drain_promotable(round, |_, _, _| ());
        same(&node);
    }
    _ = (node.nursery.snapshot_entries(), node.nursery.get_data(&tagged(1)));
    same(&node);
    let (state, counts) = node.counters.clone().into_parts();
    let parts = node.nursery.clone().into_parts();
    same(&NodeBox {
        counters: Counters::from_parts(state, counts).unwrap(),
        nursery: CellNursery::from_parts(parts).unwrap(),
        mode: Mode::Unkeyed,
    });
    same(&NodeBox::restore(&node.counters.serialize(), &journal, room, s, Mode::Unkeyed).unwrap().node_box);
}

#[test]
fn a_box_that_is_read_in_has_those_given() {
    let room = Room { counts: 4, entries: 3, cell_bytes: 9 };
    let a = settings(10_000, shrink(3, 12, 5));
    let mut node = NodeBox::new(NextIdx::new(2), room, a, Mode::Unkeyed).unwrap();
    let mut journal = Vec::new();
    node.counters.apply_batch(&[change(0, 0, 1), change(1, 0, 300)]).unwrap();
    for _ in 0..3 {
        there_and_back(&mut node.counters);
    }
    assert!(shrinks(&mut node.counters, 4));
    assert_eq!(threshold(&node.counters), 6);
    node.commit(1, &insert(1, 10, 0, &[1]), &mut journal).unwrap();
    assert_eq!(drained(&mut node.nursery, 10_000).len(), 1);

    let snapshot = node.counters.serialize();
    for s in [a, Settings::STANDARD, settings(1, shrink(1, MAX, 0)), settings(9_999, shrink(MAX, MAX, MAX))] {
        let mut c = NodeBox::restore(&snapshot, &journal, room, s, Mode::Unkeyed).unwrap().node_box;
        // The threshold starts at the given base, and the entry waits for the given delay.
        assert_eq!((c.settings(), threshold(&c.counters)), (s, s.shrink_base));
        // Neither a snapshot nor a listing shows settings.
        assert_eq!((c.counters.serialize(), c.nursery.snapshot_entries()), (snapshot.clone(), node.nursery.snapshot_entries()));
        let rounds = s.delay as u32;
        assert_eq!((drained(&mut c.nursery, rounds - 1).len(), drained(&mut c.nursery, rounds).len()), (0, 1));
        // A snapshot whose live total is too low, too.
        let mut old = snapshot.clone();
        old[9..17].fill(0);
        let loaded = Counters::load_snapshot(&old, room.counts, s.shrink()).unwrap().counters;
        assert_eq!((loaded.settings(), threshold(&loaded)), (s.shrink(), s.shrink_base));
    }
    // A journal's record doesn't either.
    assert_eq!(journal, encode_record(&Mode::Unkeyed, 1, &insert(1, 10, 0, &[1])).unwrap().bytes());
}

// ---- beside a plain model

/// The same numbers in every run.
struct Numbers(u64);

impl Numbers {
    fn below(&mut self, n: u64) -> u64 {
        self.0 = self.0.wrapping_mul(6_364_136_223_846_793_005).wrapping_add(1_442_695_040_888_963_407);
        (self.0 >> 33) % n
    }

    fn pick<T: Copy>(&mut self, of: &[T]) -> T {
        of[self.below(of.len() as u64) as usize]
    }

    fn settings(&mut self) -> Settings {
        let any = 1 + self.below(10_000);
        let delay = self.pick(&[1, 2, 100, 9_999, 10_000, any, any, any]);
        let base = 1 + self.below(6);
        let more = self.below(30);
        let max = self.pick(&[base, base + more, base + more, MAX]);
        settings(delay, shrink(base, max, self.pick(&[0, 1, 50, 50, MAX])))
    }

    /// Bytes saved around a good save.
    fn saved(&mut self, s: &Settings) -> u64 {
        self.pick(&[0, s.good_save.saturating_sub(1), s.good_save.saturating_sub(1), s.good_save, s.good_save.saturating_add(1)])
    }

    fn round(&mut self) -> u32 {
        if self.below(16) == 0 { LAST - self.below(12_000) as u32 } else { self.below(12_000) as u32 }
    }

    fn delta(&mut self) -> NurseryDelta {
        let entry = |n: &mut Self| NurseryEntryRecord {
            hash: HashBytes([n.below(20) as u8; 32]),
            idx: Idx::new(n.below(99)),
            born_round: n.round(),
            data: vec![n.below(256) as u8; n.below(4) as usize],
        };
        let inserts = (0..self.below(3)).map(|_| entry(self)).collect();
        let removes = (0..self.below(3)).map(|_| HashBytes([self.below(20) as u8; 32])).collect();
        NurseryDelta { inserts, removes }
    }
}

/// The indices that are stored, the removals and the threshold; the entries by arrival, each with whether it waits.
#[derive(Clone, Debug)]
struct Plain {
    s: Settings,
    counts: BTreeMap<u64, u64>,
    removed: u64,
    threshold: u64,
    entries: Vec<(NurseryEntryRecord, bool)>,
}

impl Plain {
    fn new(s: Settings) -> Self {
        Self { s, counts: BTreeMap::new(), removed: 0, threshold: s.shrink_base, entries: vec![] }
    }

    fn count(&mut self, idx: u64, new: u64) {
        let old = if new > 1 { self.counts.insert(idx, new) } else { self.counts.remove(&idx) };
        self.removed += u64::from(old.is_some() && new <= 1);
    }

    fn shrink(&mut self, saved: u64) -> bool {
        let yes = should_shrink(self.counts.len() as u64, self.removed, self.threshold);
        if yes {
            let doubled = u128::from(self.threshold) * 2;
            let good = saved >= self.s.good_save;
            self.threshold = if good { self.s.shrink_base } else { doubled.min(self.s.shrink_max.into()) as u64 };
            self.removed = 0;
        }
        yes
    }

    fn commit(&mut self, delta: NurseryDelta) {
        self.entries.extend(delta.inserts.into_iter().map(|e| (e, true)));
        self.entries.retain(|(e, _)| !delta.removes.contains(&e.hash));
    }

    fn drain(&mut self, round: u32) -> Vec<(HashBytes, u64, Vec<u8>)> {
        let is_due = |e: &NurseryEntryRecord| u64::from(e.born_round) + self.s.delay <= u64::from(round);
        let mut due: Vec<_> = self.entries.iter_mut().filter(|(e, waits)| *waits && is_due(e)).collect();
        due.sort_by_key(|(e, _)| e.born_round);
        due.iter_mut().for_each(|(_, waits)| *waits = false);
        due.iter().map(|(e, _)| (e.hash, e.idx.get(), e.data.clone())).collect()
    }

    /// A box that is read in: nothing is removed, the threshold is the base, and every entry waits.
    fn read_in(&mut self) {
        (self.removed, self.threshold) = (0, self.s.shrink_base);
        self.entries.iter_mut().for_each(|(_, waits)| *waits = true);
    }

    fn is(&self, node: &NodeBox) -> bool {
        let (m, n) = (node.counters.maintenance(), &node.nursery);
        let waiting = self.entries.iter().filter(|(_, waits)| *waits).count();
        node.settings() == self.s
            && (m.alive_removed_since_shrink, m.min_alive_removed_before_shrink) == (self.removed, self.threshold)
            && node.counters.iter().map(|(idx, count)| (idx.get(), count.get())).eq(self.counts.clone())
            && (n.len(), n.waiting_len()) == (self.entries.len(), waiting)
    }
}

const NEXT: u64 = 8;
const ROOM: Room = Room { counts: NEXT as usize, entries: 8, cell_bytes: 16 };

/// What is compared did come about: cells handed out, drains that come a round early, boxes that are read in, sets that aren't shrunk though something was
/// removed, and thresholds that go back, double, and stop at the maximum.
#[derive(Debug, Default)]
struct Met {
    handed: usize,
    early: usize,
    read_in: usize,
    not_yet: usize,
    back: usize,
    doubled: usize,
    stopped: usize,
}

fn one_box(n: &mut Numbers, met: &mut Met) {
    let s = n.settings();
    let (mut node, mut p, mut journal) =
        (NodeBox::new(NextIdx::new(NEXT), ROOM, s, Mode::Unkeyed).unwrap(), Plain::new(s), Vec::new());
    // Each index has a cell, so that any may rise.
    let born: Vec<_> = (0..NEXT).map(|idx| change(idx, 0, 1)).collect();
    node.counters.apply_batch(&born).unwrap();
    for id in 0..400 {
        match n.below(100) {
            0 => {
                node = NodeBox::restore(&node.counters.serialize(), &journal, ROOM, s, Mode::Unkeyed).unwrap().node_box;
                p.read_in();
                met.read_in += 1;
            }
            1..40 => {
                let idx = n.below(NEXT);
                let old = p.counts.get(&idx).copied().unwrap_or(1);
                let new = if old > 1 { n.pick(&[1, 1, 1, 2, 300]) } else { n.pick(&[1, 2, 256, 257]) };
                node.counters.apply_batch(&[change(idx, old, new)]).unwrap();
                p.count(idx, new);
            }
            40..60 => {
                let (saved, before) = (n.saved(&s), p.clone());
                let yes = p.shrink(saved);
                assert_eq!(shrinks(&mut node.counters, saved), yes, "{before:?}");
                met.not_yet += usize::from(!yes && before.removed > 0);
                met.back += usize::from(yes && saved >= s.good_save && before.threshold > s.shrink_base);
                met.doubled += usize::from(yes && saved < s.good_save && p.threshold == before.threshold.saturating_mul(2));
                met.stopped += usize::from(yes && saved < s.good_save && p.threshold == s.shrink_max);
            }
            60..75 => {
                let delta = n.delta();
                if node.commit(id, &delta, &mut journal).is_ok() {
                    p.commit(delta);
                }
            }
            _ => {
                let at = n.below(8) as usize;
                let some = p.entries.get(at).map(|(e, _)| u64::from(e.born_round) + s.delay);
                let first = some.and_then(|round| u32::try_from(round).ok()).unwrap_or(s.delay as u32);
                let round = match n.below(4) {
                    0 => n.round(),
                    1 => first,
                    2 => first.saturating_add(1),
                    _ => first - 1,
                };
                let (handed, wanted) = (drained(&mut node.nursery, round), p.drain(round));
                assert_eq!(handed, wanted, "{round}: {p:?}");
                met.handed += handed.len();
                met.early += usize::from(round == first - 1 && p.entries.get(at).is_some_and(|(_, waits)| *waits));
            }
        }
        assert!(p.is(&node), "{p:?} {:?} {:?}", node.settings(), node.counters.maintenance());
    }
}

#[test]
fn over_boxes_made_up_at_random() {
    let (mut n, mut met) = (Numbers(9), Met::default());
    (0..500).for_each(|_| one_box(&mut n, &mut met));
    let Met { handed, early, read_in, not_yet, back, doubled, stopped } = met;
    assert!([handed, early, read_in, not_yet, back, doubled, stopped].iter().all(|n| *n > 250), "{met:?}");
}
