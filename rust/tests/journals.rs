//! Journals that are whole, cut or damaged (document 02, P1): the worked ones, and every cut and every changed bit of one, beside a plain
//! definition of the reading.
use std::collections::BTreeMap;
use std::error::Error;

use selvaigo::{
    CellNursery, Counters, DamagedRecord, HashBytes, JournalError, Mode, NextIdx, NodeBox, NurseryParts, Refusal, RestoreError,
    Room, Settings, raw, read_journal, scan_journal, sys,
};

mod plain;
mod worked;
use plain::{Reading, changed_under_its_hash, decode, defined};
use worked::{tagged, three};

const SETTINGS: Settings = Settings::STANDARD;

// A record and tables of so much room, with content that is no state's.
fn nines(entries: usize, cell_bytes: usize) -> NurseryParts {
    NurseryParts {
        nursery: [9; sys::NURSERY],
        entries: vec![9; 8 * entries].into(),
        waiting: vec![9; 5 * entries].into(),
        cells: vec![9; cell_bytes].into(),
    }
}

// The reading, over such tables and into new ones, which agree.
fn read(journal: &[u8], entries: usize, cell_bytes: usize) -> Reading {
    let mut p = nines(entries, cell_bytes);
    let lent = raw::read_journal(None, journal, SETTINGS.delay, &mut p.nursery, &mut p.entries, &mut p.waiting, &mut p.cells);
    let owned = read_journal(&Mode::Unkeyed, journal, entries, cell_bytes, SETTINGS.delay);
    match (lent, owned) {
        (Ok(end), Ok((nursery, same))) => {
            assert_eq!((end, &p), (same, &nursery.into_parts()));
            Ok((CellNursery::from_parts(p).unwrap().snapshot_entries(), end))
        }
        (Err(refusal), Err(JournalError::Damaged(damaged))) => {
            assert_eq!((refusal, refusal.number(), &p), (Refusal::Damaged, damaged.number(), &nines(entries, cell_bytes)));
            Err(damaged)
        }
        other => panic!("the two forms differ: {other:?}"),
    }
}

// Scan and reading as defined; the reading.
fn as_defined(journal: &[u8], entries: usize, cell_bytes: usize) -> Reading {
    let (scan, reading) = defined(decode, journal, entries, cell_bytes);
    assert_eq!(scan_journal(&Mode::Unkeyed, journal), scan);
    assert_eq!(scan.damaged(), reading.as_ref().err().copied());
    assert_eq!(read(journal, entries, cell_bytes), reading);
    reading
}

// ---- the worked journals

fn ends(journal: &[u8], applied: u64, place: usize, number: u8, hashes: &[HashBytes]) {
    let (listing, end) = as_defined(journal, 3, 9).unwrap();
    assert_eq!((end.applied, end.place, end.refusal.map_or(0, Refusal::number)), (applied, place, number));
    assert_eq!(listing.iter().map(|e| e.hash).collect::<Vec<_>>(), hashes);
}

fn damaged(journal: &[u8], records: u64, place: usize, refusal: Refusal, text: &str) {
    let damaged = as_defined(journal, 3, 9).unwrap_err();
    assert_eq!(damaged, DamagedRecord { records, place, refusal });
    assert_eq!((damaged.number(), damaged.to_string().as_str()), (21, text));
    let scan = scan_journal(&Mode::Unkeyed, &journal[..place]);
    assert_eq!((scan.records, scan.place, scan.refusal), (records, place, None));
}

#[test]
fn the_seven_worked_journals() {
    let [first, second, third] = three();
    assert_eq!([first.len(), second.len(), third.len()], [104, 103, 88]);
    let whole = [&first[..], &second, &third].concat();
    ends(&whole, 3, 295, 0, &[tagged(2)]);

    let mut flipped = whole.clone();
    flipped[150] ^= 1;
    damaged(&flipped, 1, 104, Refusal::Mismatch, "damaged record at byte 104 of the journal, behind 1 record: mismatch");

    let mut long = whole.clone();
    long[136] = 0xff;
    ends(&long, 1, 104, 16, &[tagged(1)]);

    let mut far = whole.clone();
    far[136..144].copy_from_slice(&[0xf8, 0xff, 0xff, 0xff, 0xff, 0xff, 0xff, 0xff]);
    damaged(&far, 1, 104, Refusal::FarLength, "damaged record at byte 104 of the journal, behind 1 record: far length");

    ends(&whole[..200], 1, 104, 16, &[tagged(1)]);

    let twice = [&first[..], &first, &flipped[104..207]].concat();
    damaged(&twice, 2, 208, Refusal::Mismatch, "damaged record at byte 208 of the journal, behind 2 records: mismatch");

    let twice = [&first[..], &first, &second[..50]].concat();
    ends(&twice, 1, 104, 12, &[tagged(1)]);
}

#[test]
fn what_stands_behind_a_cut_is_not_looked_at() {
    let [first, mut second, mut third] = three();
    second[32..40].copy_from_slice(&(u64::MAX - 8).to_le_bytes());
    third[0] ^= 1;
    ends(&[&first[..], &second, &third].concat(), 1, 104, 16, &[tagged(1)]);
    damaged(&third, 0, 0, Refusal::Mismatch, "damaged record at byte 0 of the journal, behind 0 records: mismatch");
    ends(&[], 0, 0, 0, &[]);
}

#[test]
fn damage_behind_a_delta_without_room() {
    let [first, second, mut third] = three();
    let journal = [&first[..], &second, &third].concat();
    for (entries, cell_bytes) in [(1, 9), (3, 2)] {
        let (_, end) = as_defined(&journal, entries, cell_bytes).unwrap();
        assert_eq!((end.applied, end.place, end.refusal), (1, 104, Some(Refusal::NurseryFull)));
    }
    third[87] ^= 0x80;
    let damage = DamagedRecord { records: 2, place: 207, refusal: Refusal::Mismatch };
    for (entries, cell_bytes) in [(1, 9), (3, 2), (0, 0)] {
        assert_eq!(as_defined(&[&first[..], &second, &third].concat(), entries, cell_bytes).unwrap_err(), damage);
    }
}

#[test]
fn a_damaged_journal_restores_no_box() {
    let room = Room { counts: 1, entries: 3, cell_bytes: 9 };
    let snapshot = Counters::new(NextIdx::new(0), 1, SETTINGS.shrink()).unwrap().serialize();
    let mut journal = three().concat();
    assert_eq!(NodeBox::restore(&snapshot, &journal, room, SETTINGS, Mode::Unkeyed).unwrap().journal.applied, 3);
    journal[150] ^= 1;
    let error = NodeBox::restore(&snapshot, &journal, room, SETTINGS, Mode::Unkeyed).unwrap_err();
    let damage = DamagedRecord { records: 1, place: 104, refusal: Refusal::Mismatch };
    assert_eq!((error, error.number()), (RestoreError::from(damage), 21));
    assert_eq!(error.to_string(), "journal refused with 21 at byte 104");
    assert_eq!(error.source().unwrap().to_string(), damage.to_string());
    let error = NodeBox::restore(&[], &journal, room, SETTINGS, Mode::Unkeyed).unwrap_err();
    assert_eq!((error, error.number()), (RestoreError::from(Refusal::TornSnapshot), 8));
    assert_eq!(error.to_string(), "snapshot refused with 8");
    assert_eq!(error.source().unwrap().to_string(), "torn snapshot");
}

// ---- every one

#[test]
fn every_cut() {
    let journal = three().concat();
    for k in 0..=journal.len() {
        let (_, end) = as_defined(&journal[..k], 3, 9).unwrap();
        let whole = [0, 104, 207, 295];
        assert_eq!(end.refusal, if whole.contains(&k) { None } else { Some(Refusal::ShortRecord) });
        assert_eq!(end.place, *whole.iter().rfind(|place| **place <= k).unwrap());
    }
}

#[test]
fn every_changed_bit() {
    let journal = three().concat();
    let mut seen = BTreeMap::new();
    for bit in 0..8 * journal.len() {
        let mut flipped = journal.clone();
        flipped[bit / 8] ^= 1 << (bit % 8);
        let number = match as_defined(&flipped, 3, 9) {
            Ok((_, end)) => end.refusal.map_or(0, Refusal::number),
            Err(damaged) => damaged.number(),
        };
        *seen.entry(number).or_insert(0) += 1;
    }
    // A length of 64, 63 or 48 that a bit makes longer than the rest of the journal reads as a cut; all else is damage.
    let longer = [(64, 295 - 40), (63, 295 - 144), (48, 295 - 247)]
        .map(|(len, rest): (u64, u64)| (0..64).filter(|bit| len ^ 1 << bit > rest).count());
    let cuts = longer.iter().sum::<usize>();
    assert_eq!(seen, BTreeMap::from([(16, cuts), (21, 8 * journal.len() - cuts)]));
}

#[test]
fn every_changed_bit_under_the_right_hash() {
    let journal = three().concat();
    let mut seen = BTreeMap::new();
    for bit in 8 * 136..8 * 207 {
        // The second record, which starts at 104.
        let number = match as_defined(&changed_under_its_hash(&journal, 104, bit), 3, 9) {
            Ok((_, end)) => end.refusal.map_or(0, Refusal::number),
            Err(damaged) => damaged.refusal.number(),
        };
        *seen.entry(number).or_insert(0) += 1;
    }
    assert_eq!(seen.into_keys().collect::<Vec<_>>(), [0, 16, 19, 22]);
}
