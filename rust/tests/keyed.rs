//! Records and journals under a key (document 02, P9): the worked ones, what a key of another length is refused with and leaves, hash mode with any key beside
//! it, a journal under its key and under others, every cut and every changed bit of one, its conversion, and boxes with keys made up at random, beside boxes without one.
use std::collections::BTreeSet;
use std::marker::PhantomData;

use selvaigo::{
    CellNursery, Converted, CounterTransition, DamagedRecord, DeltaItems, Dropped, HashBytes, Idx, JournalEnd, JournalError,
    JournalScan, Mode, NextIdx, NodeBox, NurseryDelta, NurseryEntryRecord, NurseryParts, PromotedCell, Refusal, RestoreError,
    Room, Settings, convert_journal, decode_record, encode_items, encode_record, hash, keyed_hash, raw, read_journal,
    scan_journal, sys,
};

mod junk;
mod worked;
use junk::{junk, read};
use worked::{insert, remove, tagged, three, three_in};

const KEY: [u8; 32] = *b"whats the Elvish word for friend";
const FLEET: Mode = Mode::Keyed(KEY);
const ZEROS: Mode = Mode::Keyed([0; 32]);
const DELAY: u64 = Settings::STANDARD.delay;

/// Keys that are none. The longer ones start with a key, and the last one's length is a key's in its last byte.
fn no_keys() -> [Vec<u8>; 4] {
    [0, 31, 33, 288].map(|len| KEY.repeat(9)[..len].to_vec())
}

fn hex(bytes: &[u8]) -> String {
    bytes.iter().map(|byte| format!("{byte:02x}")).collect()
}

/// A mode's hash.
fn hash_in(mode: &Mode, bytes: &[u8]) -> [u8; 32] {
    match mode {
        Mode::Unkeyed => hash(bytes),
        Mode::Keyed(key) => keyed_hash(key, bytes),
    }
}

/// The record of a stated length and a payload, with the right hash in a mode.
fn record(mode: &Mode, len: u64, payload: &[u8]) -> Vec<u8> {
    let hashed = [&len.to_le_bytes()[..], payload].concat();
    [&hash_in(mode, &hashed)[..], &hashed].concat()
}

fn number<T>(answer: Result<T, Refusal>) -> u8 {
    answer.map_or_else(Refusal::number, |_| 0)
}

// ---- the calls, with all that they leave

fn hashed(key: &[u8], bytes: &[u8]) -> (u8, [u8; 32]) {
    let mut hash = [9; 32];
    // SAFETY: slices and an array, none of which overlaps another.
    let answer = unsafe { sys::selvaigo_keyed_hash(key.as_ptr(), key.len(), bytes.as_ptr(), bytes.len(), &mut hash) };
    (answer, hash)
}

fn encoded(keyed: u8, key: &[u8], items: &DeltaItems<'_>, room: usize) -> (u8, [u64; 6], Vec<u8>) {
    let (mut out, mut figures) = (vec![9; room], [9; 6]);
    // SAFETY: slices and an array, none of which overlaps another.
    let answer = unsafe {
        sys::selvaigo_encode_record(
            keyed,
            key.as_ptr(),
            key.len(),
            7,
            items.wide.into(),
            items.inserts,
            items.removes,
            items.bytes.as_ptr(),
            items.bytes.len(),
            out.as_mut_ptr(),
            out.len(),
            &mut figures,
        )
    };
    (answer, figures, out)
}

fn decoded(keyed: u8, key: &[u8], bytes: &[u8]) -> (u8, [u64; 8], [u8; 32]) {
    let (mut figures, mut hash) = ([9; 8], [9; 32]);
    // SAFETY: slices and arrays, none of which overlaps another.
    let answer = unsafe {
        sys::selvaigo_decode_record(keyed, key.as_ptr(), key.len(), bytes.as_ptr(), bytes.len(), &mut figures, &mut hash)
    };
    (answer, figures, hash)
}

fn scanned(keyed: u8, key: &[u8], journal: &[u8]) -> (u8, [u64; 3]) {
    let mut scan = [9; 3];
    // SAFETY: slices and an array, none of which overlaps another.
    let answer =
        unsafe { sys::selvaigo_scan_journal(keyed, key.as_ptr(), key.len(), journal.as_ptr(), journal.len(), &mut scan) };
    (answer, scan)
}

/// The reading over lent tables of any content, and what it leaves of them.
fn lent(key: Option<&[u8]>, journal: &[u8], delay: u64) -> (Result<JournalEnd, Refusal>, NurseryParts) {
    let mut p = junk();
    let answer = raw::read_journal(key, journal, delay, &mut p.nursery, &mut p.entries, &mut p.waiting, &mut p.cells);
    (answer, p)
}

// ---- what they are given

/// Deltas with an output of so many bytes, and the number that their record is refused with.
fn deltas() -> Vec<(DeltaItems<'static>, usize, u8)> {
    let one = insert(1, 10, 0, &[0xaa, 0xbb]).to_items().unwrap();
    let long = insert(1, 10, 0, &[0; 65_536]).to_items().unwrap();
    let none = DeltaItems::borrowed(0, 0, &[]);
    let past = DeltaItems::borrowed(1, 0, &[0; 45]);
    assert!(long.wide);
    vec![
        (one.clone(), 104, 0),
        (one.clone(), 110, 0),
        (one, 103, 15),
        (none.clone(), 56, 0),
        (none, 0, 15),
        (long, 99, 14),
        (past.clone(), 99, 20),
        (past, 0, 20),
    ]
}

/// The bytes of records in a mode, and the number that each is refused with there.
fn records(mode: &Mode) -> Vec<(Vec<u8>, u8)> {
    let [first, ..] = three_in(mode);
    let mut wrong = first.clone();
    wrong[103] ^= 0x80;
    vec![
        (first.clone(), 0),
        ([&first[..], &[0xff; 9]].concat(), 0),
        (vec![], 16),
        (first[..39].to_vec(), 16),
        (first[..103].to_vec(), 16),
        (record(mode, u64::MAX - 8, &[0; 16]), 16),
        (record(mode, u64::MAX - 7, &[0; 16]), 17),
        (wrong, 18),
        (record(mode, 15, &[0; 15]), 19),
        (record(mode, 16, &[0, 0, 0, 0, 0, 0, 0, 0, 1, 0, 0, 0, 0, 0, 0, 0]), 19),
        (record(mode, 17, &[0; 17]), 22),
    ]
}

/// Journals in a mode: the number that reading is refused with, and the number that ends it or the scan.
fn journals(mode: &Mode) -> Vec<(Vec<u8>, u8, u8)> {
    let [first, second, third] = three_in(mode);
    let mut wrong = second.clone();
    wrong[50] ^= 1;
    vec![
        (vec![], 0, 0),
        ([&first[..], &second, &third].concat(), 0, 0),
        ([&first[..], &second[..80]].concat(), 0, 16),
        ([&first[..], &first].concat(), 0, 12),
        (wrong.clone(), 21, 18),
        ([&first[..], &wrong, &third].concat(), 21, 18),
        ([&first[..], &first, &record(mode, 17, &[0; 17])].concat(), 21, 22),
    ]
}

// ---- the worked ones

#[test]
fn worked_hashes() {
    let bytes: Vec<u8> = (0..1_025).map(|i| (i % 251) as u8).collect();
    let none = "92b2b75604ed3c761f9d6f62392c8a9227ad0ea3f09573e783f1498a4ed60d26";
    let some = "357dc55de0c7e382c900fd6e320acc04146be01db6a8ce7210b7189bd664ea69";
    for (bytes, wanted) in [(&[][..], none), (&bytes, some)] {
        assert_eq!(hex(&keyed_hash(&KEY, bytes)), wanted);
        assert_eq!(raw::keyed_hash(&KEY, bytes).map(|hash| hex(&hash)).as_deref(), Ok(wanted));
        let (answer, hash) = hashed(&KEY, bytes);
        assert_eq!((answer, hex(&hash).as_str()), (0, wanted));
    }
    // Without a key it is another hash, and so it is under another one.
    assert_eq!(hex(&hash(&[])), "af1349b9f5f9a1a6a0404dea36dcc9499bcb25c9adc112b7cc9a93cae41f3262");
    assert_ne!(keyed_hash(&[0; 32], &[]), hash(&[]));
}

#[test]
fn a_worked_record() {
    let unkeyed = encode_record(&Mode::Unkeyed, 0, &NurseryDelta::default()).unwrap();
    let keyed = encode_record(&FLEET, 0, &NurseryDelta::default()).unwrap();
    assert_eq!(hex(unkeyed.hash()), "8b3e041c02d485db86460a7725b57f5ac98eb39bea015df045d7ef99420a321b");
    assert_eq!(hex(keyed.hash()), "3afc6435a675014bc57e1245fccd94ea86abab2c2a7916c8be6a1f31afb55136");
    assert_eq!((keyed.bytes().len(), &keyed.bytes()[32..]), (56, &unkeyed.bytes()[32..]));
    assert_eq!((keyed.id(), keyed.stats()), (0, unkeyed.stats()));

    for (mode, own, others) in [(FLEET, &keyed, [ZEROS, Mode::Unkeyed]), (Mode::Unkeyed, &unkeyed, [FLEET, ZEROS])] {
        let d = decode_record(&mode, own.bytes()).unwrap();
        assert_eq!(
            (d.id, &d.hash, &d.stats, d.record_len(), d.delta()),
            (0, own.hash(), own.stats(), 56, NurseryDelta::default())
        );
        for other in others {
            assert_eq!(number(decode_record(&other, own.bytes())), 18);
        }
    }
    for key in no_keys() {
        for bytes in [&[][..], &keyed.bytes()[..55]] {
            assert_eq!((number(raw::decode_record(Some(&key), bytes)), decoded(1, &key, bytes).0), (23, 23));
        }
    }
    assert_eq!((number(raw::decode_record(None, &[])), decoded(0, &[], &[]).0), (16, 16));
}

#[test]
fn every_bit_of_a_key_counts() {
    let keyed = three_in(&FLEET).concat();
    let mut hashes = BTreeSet::from([hash(b"cell"), keyed_hash(&KEY, b"cell")]);
    for bit in 0..256 {
        let mut key = KEY;
        key[bit / 8] ^= 1 << (bit % 8);
        hashes.insert(keyed_hash(&key, b"cell"));
        let other = Mode::Keyed(key);
        assert_eq!(number(decode_record(&other, &keyed)), 18);
        assert_eq!(scan_journal(&other, &keyed), JournalScan { records: 0, place: 0, refusal: Some(Refusal::Mismatch) });
    }
    assert_eq!(hashes.len(), 258);
}

// ---- a key of another length

#[test]
fn a_hash_under_no_key() {
    for bytes in [&[][..], &[7; 64], &[7; 2_049]] {
        assert_eq!(hashed(&KEY, bytes), (0, keyed_hash(&KEY, bytes)));
        for key in no_keys() {
            assert_eq!(hashed(&key, bytes), (23, [0; 32]));
            assert_eq!(raw::keyed_hash(&key, bytes), Err(Refusal::BadSetting));
        }
    }
}

#[test]
fn a_record_written_under_no_key() {
    for (items, room, wanted) in deltas() {
        assert_eq!((encoded(1, &KEY, &items, room).0, encoded(0, &[], &items, room).0), (wanted, wanted));
        for key in no_keys() {
            assert_eq!(encoded(1, &key, &items, room), (23, [0; 6], vec![9; room]));
            let mut out = vec![9; room];
            assert_eq!(raw::encode_items(Some(&key), 7, &items, &mut out), Err(Refusal::BadSetting));
            assert!(out.iter().all(|byte| *byte == 9));
        }
    }
}

#[test]
fn a_record_read_under_no_key() {
    for (bytes, wanted) in records(&FLEET) {
        assert_eq!(decoded(1, &KEY, &bytes).0, wanted);
        for key in no_keys() {
            assert_eq!(decoded(1, &key, &bytes), (23, [0; 8], [0; 32]));
            assert_eq!(raw::decode_record(Some(&key), &bytes), Err(Refusal::BadSetting));
        }
    }
}

#[test]
fn a_journal_under_no_key() {
    for (journal, wanted, ended) in journals(&FLEET) {
        let (answer, [.., end]) = scanned(1, &KEY, &journal);
        // A delta isn't applied by the scan, so it isn't refused there.
        assert_eq!((answer, end), (0, if ended == 12 { 0 } else { ended.into() }));
        let (answer, [.., end], _) = read(1, &KEY, &journal, DELAY);
        assert_eq!((answer, end), (wanted, if wanted == 0 { ended.into() } else { 0 }));
        // A delay outside its range is refused, under a key as without one.
        assert_eq!(read(1, &KEY, &journal, 0), (23, [0; 3], junk()));
        for key in no_keys() {
            assert_eq!(scanned(1, &key, &journal), (23, [0; 3]));
            assert_eq!(raw::scan_journal(Some(&key), &journal), Err(Refusal::BadSetting));
            for delay in [DELAY, 1, 10_000, 0, 10_001] {
                assert_eq!(read(1, &key, &journal, delay), (23, [0; 3], junk()));
                assert_eq!(lent(Some(&key), &journal, delay), (Err(Refusal::BadSetting), junk()));
            }
        }
    }
}

// ---- mode and key as the calls take them

#[test]
fn hash_mode_looks_at_no_key() {
    for key in [&[][..], &[1], &KEY[..5], &KEY[..31], &KEY, &[KEY; 2].concat()] {
        for (items, room, wanted) in deltas() {
            let answer = encoded(0, key, &items, room);
            assert_eq!((answer.0, &answer), (wanted, &encoded(0, &[], &items, room)));
            let mut out = vec![9; room];
            assert_eq!(number(raw::encode_items(None, 7, &items, &mut out)), wanted);
            assert_eq!(out, answer.2);
            if wanted == 0 {
                let len = answer.1[0] as usize;
                assert_eq!(out[..32], hash(&out[32..len]));
            }
        }
        for (bytes, wanted) in records(&Mode::Unkeyed) {
            let answer = decoded(0, key, &bytes);
            assert_eq!((answer.0, &answer), (wanted, &decoded(0, &[], &bytes)));
            assert_eq!(number(raw::decode_record(None, &bytes)), wanted);
        }
        for (journal, wanted, _) in journals(&Mode::Unkeyed) {
            assert_eq!(scanned(0, key, &journal), scanned(0, &[], &journal));
            assert_eq!(raw::scan_journal(None, &journal), Ok(scan_journal(&Mode::Unkeyed, &journal)));
            let (answer, _, p) = read(0, key, &journal, DELAY);
            assert_eq!((answer, &p), (wanted, &lent(None, &journal, DELAY).1));
            assert_eq!((p == junk(), read(0, key, &journal, 0)), (wanted != 0, (23, [0; 3], junk())));
        }
    }
}

/// Any number but 0 is keyed mode, and the forms with a mode are those with its key.
#[test]
fn keyed_mode_by_any_number() {
    for keyed in [1, 2, 128, 255] {
        for (items, room, wanted) in deltas() {
            let (answer, figures, out) = encoded(keyed, &KEY, &items, room);
            let mut same = vec![9; room];
            let [len, stats] =
                encode_items(&FLEET, 7, &items, &mut same).map_or([0; 2], |(len, s)| [len as u64, s.payload_bytes]);
            assert_eq!((answer, figures[0], figures[1], &out), (wanted, len, stats, &same));
            if wanted == 0 {
                assert_eq!(out[..32], keyed_hash(&KEY, &out[32..len as usize]));
            }
            assert_eq!(number(raw::encode_items(FLEET.key(), 7, &items, &mut same)), wanted);
        }
        for (bytes, wanted) in records(&FLEET) {
            let (answer, figures, hash) = decoded(keyed, &KEY, &bytes);
            let owned = decode_record(&FLEET, &bytes);
            let (id, of) = owned.as_ref().map_or((0, [0; 32]), |d| (d.id, d.hash));
            assert_eq!((answer, figures[0], hash), (wanted, id, of));
            assert_eq!(raw::decode_record(FLEET.key(), &bytes), owned);
        }
        for (journal, wanted, _) in journals(&FLEET) {
            let (answer, [records, place, ended]) = scanned(keyed, &KEY, &journal);
            let scan = scan_journal(&FLEET, &journal);
            assert_eq!((answer, records, place as usize), (0, scan.records, scan.place));
            assert_eq!(
                (ended, raw::scan_journal(FLEET.key(), &journal)),
                (scan.refusal.map_or(0, |r| r.number().into()), Ok(scan))
            );
            let (answer, _, p) = read(keyed, &KEY, &journal, DELAY);
            let (also, same) = lent(FLEET.key(), &journal, DELAY);
            assert_eq!((answer, number(also), &p, p == junk()), (wanted, wanted, &same, wanted != 0));
        }
    }
}

#[test]
fn the_modes() {
    assert_eq!((Mode::default(), Mode::Unkeyed.key(), FLEET.key()), (Mode::Unkeyed, None, Some(&KEY[..])));
    assert_eq!(FLEET.clone(), FLEET);
    assert!(FLEET != ZEROS && FLEET != Mode::Unkeyed && ZEROS != Mode::Unkeyed);
}

/// Whether values of a type are copied: a type's own constant comes before a trait's.
trait Moved {
    const COPIED: bool = false;
}

struct Of<T>(PhantomData<T>);

impl<T> Moved for Of<T> {}

impl<T: Copy> Of<T> {
    const COPIED: bool = true;
}

#[test]
fn a_mode_is_not_copied() {
    assert_eq!((Of::<[u8; 32]>::COPIED, Of::<Mode>::COPIED), (true, false));
}

/// Whether a text has four bytes of a key in a row, in hex or as a list of numbers.
fn shows(text: &str, key: &[u8; 32]) -> bool {
    let text: String = text.split_whitespace().collect::<String>().to_lowercase();
    let list = |four: &[u8], one: fn(&u8) -> String, comma: &str| four.iter().map(one).collect::<Vec<_>>().join(comma);
    key.windows(4).any(|four| {
        let forms = [list(four, u8::to_string, ","), hex(four), list(four, |b| format!("{b:x}"), ",")];
        forms.iter().any(|form| text.contains(form))
    })
}

#[test]
fn what_is_printed_has_no_key() {
    for key in [KEY, std::array::from_fn(|i| 200 + i as u8)] {
        for text in [format!("{key:?}"), format!("{key:#?}"), format!("{key:x?}"), format!("{key:02X?}"), hex(&key)] {
            assert!(shows(&text, &key));
        }
        let mode = Mode::Keyed(key);
        assert_eq!((format!("{mode:?}"), format!("{mode:#?}")), ("Keyed(..)".into(), "Keyed(..)".into()));
        let (node, journal) = boxed(mode.clone());
        let restored = NodeBox::restore(&node.counters.serialize(), &journal, ROOM, Settings::STANDARD, mode).unwrap();
        for text in [format!("{node:?}"), format!("{node:#?}"), format!("{restored:?}"), format!("{restored:x?}")] {
            assert!(text.contains("mode: Keyed(..)") && !shows(&text, &key), "{text}");
        }
    }
    assert_eq!(format!("{:?}", Mode::Unkeyed), "Unkeyed");
    assert!(format!("{:?}", boxed(Mode::Unkeyed).0).contains("mode: Unkeyed"));
}

// ---- a record in a mode, and in another

#[test]
fn the_other_refusals_keep_their_order() {
    for (own, others) in [(FLEET, [ZEROS, Mode::Unkeyed]), (ZEROS, [FLEET, Mode::Unkeyed]), (Mode::Unkeyed, [FLEET, ZEROS])] {
        for (bytes, wanted) in records(&own) {
            assert_eq!(number(decode_record(&own, &bytes)), wanted);
            for other in &others {
                // Before its hash is looked at it is refused as in its own mode, and else for its hash.
                assert_eq!(number(decode_record(other, &bytes)), if matches!(wanted, 16 | 17) { wanted } else { 18 });
            }
        }
    }
}

// ---- journals of boxes

const ROOM: Room = Room { counts: 4, entries: 3, cell_bytes: 9 };

fn change(idx: u64, old_raw: u64, new_raw: u64) -> CounterTransition {
    CounterTransition { idx: Idx::new(idx), old_raw, new_raw }
}

/// A box in a mode, and its journal, which is that of the worked records.
fn boxed(mode: Mode) -> (NodeBox, Vec<u8>) {
    let (mut node, mut journal) = (NodeBox::new(NextIdx::new(4), ROOM, Settings::STANDARD, mode).unwrap(), Vec::new());
    node.counters.apply_batch(&[change(0, 0, 2), change(3, 0, 300)]).unwrap();
    for (id, delta) in [(1, insert(1, 10, 0, &[0xaa, 0xbb])), (2, insert(2, 11, 1, &[0xcc])), (3, remove(1))] {
        node.commit(id, &delta, &mut journal).unwrap();
    }
    (node, journal)
}

#[test]
fn a_box_writes_in_its_mode() {
    for mode in [FLEET, ZEROS, Mode::Unkeyed] {
        let (node, journal) = boxed(mode.clone());
        assert_eq!((&node.mode, journal), (&mode, three_in(&mode).concat()));
    }
    let [keyed, zeros, unkeyed] = [FLEET, ZEROS, Mode::Unkeyed].map(|mode| boxed(mode).1);
    assert!(keyed != zeros && keyed != unkeyed && zeros != unkeyed);
}

#[test]
fn a_box_is_read_in_under_its_key_alone() {
    let damaged = DamagedRecord { records: 0, place: 0, refusal: Refusal::Mismatch };
    let modes = [FLEET, ZEROS, Mode::Unkeyed];
    for own in &modes {
        let (node, journal) = boxed(own.clone());
        let snapshot = node.counters.serialize();
        for other in modes.iter().filter(|other| *other != own) {
            let error = NodeBox::restore(&snapshot, &journal, ROOM, Settings::STANDARD, other.clone()).unwrap_err();
            assert_eq!((error, error.number()), (RestoreError::Journal(damaged), 21));
            let error = read_journal(other, &journal, 3, 9, DELAY).unwrap_err();
            assert_eq!((error, error.number()), (JournalError::Damaged(damaged), 21));
            assert_eq!(scan_journal(other, &journal).damaged(), Some(damaged));
            assert_eq!(lent(other.key(), &journal, DELAY), (Err(Refusal::Damaged), junk()));
            // A snapshot has no key, and the journal of a box without records none either.
            let none = NodeBox::restore(&snapshot, &[], ROOM, Settings::STANDARD, other.clone()).unwrap();
            assert_eq!((none.journal.applied, none.node_box.counters.serialize()), (0, snapshot.clone()));
            // One record of another key behind records of its own.
            let mixed = [journal.clone(), three_in(other)[1].clone()].concat();
            let behind = DamagedRecord { records: 3, place: 295, refusal: Refusal::Mismatch };
            assert_eq!(read_journal(own, &mixed, 3, 9, DELAY).unwrap_err(), behind.into());
        }

        let mut again = NodeBox::restore(&snapshot, &journal, ROOM, Settings::STANDARD, own.clone()).unwrap();
        assert_eq!(again.journal, JournalEnd { applied: 3, place: 295, refusal: None });
        assert_eq!((&again.node_box.mode, again.node_box.counters.serialize()), (own, snapshot.clone()));
        assert_eq!(again.node_box.nursery.snapshot_entries(), node.nursery.snapshot_entries());
        assert_eq!(again.node_box.nursery.get_idx(&tagged(2)), Some(Idx::new(11)));
        // It goes on in the same mode.
        let mut longer = journal.clone();
        again.node_box.commit(4, &insert(5, 12, 2, &[7]), &mut longer).unwrap();
        assert_eq!(longer, [journal, encode_record(own, 4, &insert(5, 12, 2, &[7])).unwrap().bytes().to_vec()].concat());
        assert_eq!(NodeBox::restore(&snapshot, &longer, ROOM, Settings::STANDARD, own.clone()).unwrap().journal.applied, 4);
    }
}

/// What a reading leaves: the tables and where it ended, or the damaged record.
fn reading(mode: &Mode, journal: &[u8]) -> Result<(NurseryParts, JournalEnd), JournalError> {
    read_journal(mode, journal, 3, 9, DELAY).map(|(nursery, end)| (nursery.into_parts(), end))
}

#[test]
fn every_cut() {
    let (keyed, unkeyed) = (three_in(&FLEET).concat(), three().concat());
    let mut ends = BTreeSet::new();
    for k in 0..=keyed.len() {
        let (parts, end) = reading(&FLEET, &keyed[..k]).unwrap();
        assert_eq!(reading(&Mode::Unkeyed, &unkeyed[..k]), Ok((parts, end)));
        assert_eq!(scan_journal(&FLEET, &keyed[..k]), scan_journal(&Mode::Unkeyed, &unkeyed[..k]));
        ends.insert((end.applied, end.place, end.refusal.map_or(0, Refusal::number)));

        // Under another key nothing is taken up, and as long as the first record is cut there is nothing to be refused.
        for other in [ZEROS, Mode::Unkeyed] {
            let wanted = match k {
                0 => Ok((0, 0, None)),
                1..104 => Ok((0, 0, Some(Refusal::ShortRecord))),
                _ => Err(JournalError::Damaged(DamagedRecord { records: 0, place: 0, refusal: Refusal::Mismatch })),
            };
            let read = reading(&other, &keyed[..k]).map(|(parts, end)| {
                assert!(CellNursery::from_parts(parts).unwrap().is_empty());
                (end.applied, end.place, end.refusal)
            });
            assert_eq!(read, wanted);
        }
    }
    let wanted = [(0, 0, 0), (0, 0, 16), (1, 104, 0), (1, 104, 16), (2, 207, 0), (2, 207, 16), (3, 295, 0)];
    assert_eq!(ends, BTreeSet::from(wanted));
}

#[test]
fn every_changed_bit() {
    let (keyed, unkeyed) = (three_in(&FLEET).concat(), three().concat());
    let mut seen = BTreeSet::new();
    for bit in 0..8 * keyed.len() {
        let [keyed, unkeyed] = [&keyed, &unkeyed].map(|journal| {
            let mut changed = journal.clone();
            changed[bit / 8] ^= 1 << (bit % 8);
            changed
        });
        let read = reading(&FLEET, &keyed);
        assert_eq!(read, reading(&Mode::Unkeyed, &unkeyed));
        seen.insert(read.map_or_else(|error| error.number(), |(_, end)| end.refusal.map_or(0, Refusal::number)));
    }
    assert_eq!(seen, BTreeSet::from([16, 21]));
}

#[test]
fn conversion_is_without_a_key() {
    let same = |journal: &[u8]| Converted { journal: journal.to_vec(), dropped: vec![] };
    let keyed = three_in(&FLEET).concat();
    // Also one with leftovers, which is refused with 22 under its key.
    let leftovers = [&record(&FLEET, 17, &[0; 17]), &keyed[..]].concat();
    assert_eq!(scan_journal(&FLEET, &leftovers).refusal, Some(Refusal::Leftover));
    for journal in [&keyed, &leftovers, &keyed[..200].to_vec()] {
        assert_eq!(convert_journal(journal), same(journal));
    }
    // The same bytes without a key are converted, and behind them those under a key stay as they are.
    let old = record(&Mode::Unkeyed, 17, &[0; 17]);
    let new = record(&Mode::Unkeyed, 16, &[0; 16]);
    let converted = convert_journal(&[&old, &leftovers[..]].concat());
    assert_eq!(converted.journal, [&new, &leftovers[..]].concat());
    assert_eq!(converted.dropped, [Dropped { place: 56, count: 1 }]);
}

// ---- made up at random

/// The same numbers in every run.
struct Numbers(u64);

impl Numbers {
    fn below(&mut self, n: u64) -> u64 {
        self.0 = self.0.wrapping_mul(6_364_136_223_846_793_005).wrapping_add(1_442_695_040_888_963_407);
        (self.0 >> 33) % n
    }

    fn key(&mut self) -> [u8; 32] {
        std::array::from_fn(|_| self.below(256) as u8)
    }

    fn hash(&mut self) -> HashBytes {
        HashBytes([self.below(20) as u8; 32])
    }

    fn delta(&mut self) -> NurseryDelta {
        let entry = |n: &mut Self| NurseryEntryRecord {
            hash: n.hash(),
            idx: Idx::new(n.below(99)),
            born_round: n.below(200) as u32,
            // Some over a block or a chunk of the hash.
            data: vec![n.below(256) as u8; [0, 1, 2, 3, 100, 1_500][n.below(6) as usize]],
        };
        let inserts = (0..self.below(3)).map(|_| entry(self)).collect();
        let removes = (0..self.below(3)).map(|_| self.hash()).collect();
        NurseryDelta { inserts, removes }
    }
}

/// What is compared did come about.
#[derive(Debug, Default)]
struct Met {
    records: usize,
    refused: usize,
    handed: usize,
    read_in: usize,
}

/// The two journals have the same records but for the hashes, and these are the right ones.
fn only_hashes_differ(key: &[u8; 32], keyed: &[u8], unkeyed: &[u8]) -> usize {
    assert_eq!(keyed.len(), unkeyed.len());
    let (mut place, mut records) = (0, 0);
    while place < unkeyed.len() {
        let len = decode_record(&Mode::Unkeyed, &unkeyed[place..]).unwrap().record_len();
        let [(a, with), (b, without)] = [keyed, unkeyed].map(|journal| journal[place..place + len].split_at(32));
        assert_eq!((with, a, b), (without, &keyed_hash(key, with)[..], &hash(without)[..]));
        assert_ne!(a, b);
        (place, records) = (place + len, records + 1);
    }
    records
}

fn drained(node: &mut NodeBox, round: u32) -> Vec<(HashBytes, Idx, Vec<u8>)> {
    let mut out = vec![0; 42 * node.nursery.len() + node.nursery.cell_bytes()];
    let len = node.nursery.drain_promotable_into(round, &mut out).unwrap();
    PromotedCell::all(&out[..len]).map(|cell| (cell.hash, cell.idx, cell.data.to_vec())).collect()
}

fn two_boxes(n: &mut Numbers, met: &mut Met) {
    let (room, settings) = (Room { counts: 8, entries: 8, cell_bytes: 4_000 }, Settings::STANDARD);
    let key = n.key();
    let modes = [Mode::Keyed(key), Mode::Unkeyed];
    let mut nodes = modes.clone().map(|mode| NodeBox::new(NextIdx::new(8), room, settings, mode).unwrap());
    let mut journals = [vec![], vec![]];
    for id in 0..60 {
        match n.below(20) {
            0 => {
                let snapshot = nodes[0].counters.serialize();
                let [a, b] = [0, 1].map(|k| NodeBox::restore(&snapshot, &journals[k], room, settings, modes[k].clone()).unwrap());
                assert_eq!(a.journal, b.journal);
                assert_eq!(a.journal.place, journals[0].len());
                nodes = [a.node_box, b.node_box];
                met.read_in += 1;
            }
            1..5 => {
                let change = change(n.below(8), n.below(2), n.below(4));
                let [a, b] = nodes.each_mut().map(|node| node.counters.apply_batch(&[change]));
                assert_eq!(a, b);
            }
            5..8 => {
                let round = n.below(400) as u32;
                let [a, b] = nodes.each_mut().map(|node| drained(node, round));
                assert_eq!(a, b);
                met.handed += a.len();
            }
            _ => {
                let delta = n.delta();
                let [a, b] = [0, 1].map(|k| nodes[k].commit(id, &delta, &mut journals[k]));
                assert_eq!(a, b);
                met.refused += usize::from(a.is_err());
            }
        }
        let [a, b] = nodes.each_ref().map(|node| (node.counters.serialize(), node.nursery.clone().into_parts()));
        assert_eq!(a, b);
        let [a, b] = nodes.each_ref().map(|node| node.nursery.snapshot_entries());
        assert_eq!(a, b);
    }
    let records = only_hashes_differ(&key, &journals[0], &journals[1]);
    met.records += records;
    // Neither journal is the other's.
    let others = [scan_journal(&modes[1], &journals[0]), scan_journal(&modes[0], &journals[1])];
    let refusal = (records > 0).then_some(Refusal::Mismatch);
    assert_eq!(others, [JournalScan { records: 0, place: 0, refusal }; 2]);
}

#[test]
fn over_boxes_made_up_at_random() {
    let (mut n, mut met) = (Numbers(5), Met::default());
    (0..300).for_each(|_| two_boxes(&mut n, &mut met));
    let Met { records, refused, handed, read_in } = met;
    assert!(records > 3_000 && refused > 500 && handed > 500 && read_in > 300, "{met:?}");
}
