// The hash, records, a journal, and its conversion.
use std::hint::black_box;
use std::num::NonZeroUsize;
use std::sync::Arc;

use rayon::ThreadPool;
use selvaigo::{DeltaItems, Mode, Settings, decode_record, encode_items, raw};

use super::super::cell_nursery::{CellNursery, NurseryDelta};
use super::super::nursery_persistence::format;
use super::compare_nursery::same_entries;
use super::{insert, insert_of, items_of, mixed, with_commas};
use crate::measure::{Run, side};

// The modes of the port's records, and how their lines are named. The original has the first alone.
const MODES: [(Mode, &str); 2] = [(Mode::Unkeyed, ""), (Mode::Keyed(*b"whats the Elvish word for friend"), ", keyed")];

// A record of the original's, with the official hash in a mode.
fn in_mode(mode: &Mode, record: &[u8]) -> Vec<u8> {
    match mode {
        Mode::Unkeyed => record.to_vec(),
        Mode::Keyed(key) => [blake3::keyed_hash(key, &record[32..]).as_slice(), &record[32..]].concat(),
    }
}

pub fn hash(run: &Run, len: u64) {
    let what = format!("hash, {} bytes", with_commas(len));
    if !run.wanted(&what) {
        return;
    }
    let bytes: Vec<u8> = (0..len).map(|i| mixed(i) as u8).collect();
    assert_eq!(&selvaigo::hash(&bytes), blake3::hash(&bytes).as_bytes());
    let ours = side(1, || _ = black_box(selvaigo::hash(black_box(&bytes))));
    let theirs = side(1, || drop(black_box(blake3::hash(black_box(&bytes)))));
    run.line(&what, [ours, theirs]);
}

pub fn record(run: &Run, inserts: u64) {
    for (mode, name) in MODES {
        let what = format!("record, {} inserts{name}", with_commas(inserts));
        if run.wanted(&what) {
            record_in(run, &what, &mode, inserts);
        }
    }
}

fn record_in(run: &Run, what: &str, mode: &Mode, inserts: u64) {
    let delta = NurseryDelta { inserts: (0..inserts).map(insert).collect(), removes: Vec::new() };
    let bytes = items_of(&delta.inserts);
    let items = DeltaItems::borrowed(inserts, 0, &bytes);
    let record = format::encode_record(5, &delta).bytes().to_vec();
    let own = in_mode(mode, &record);
    let mut out = vec![0; own.len()];
    let (len, written) = encode_items(mode, 5, &items, &mut out).unwrap();
    assert!(len == own.len() && out == own, "the two records differ");
    let mut buffer = Vec::new();
    same_record(mode, &record, &bytes, written, &mut buffer);

    let ours = side(1, || _ = black_box(encode_items(mode, 5, &items, &mut out)));
    let theirs = side(1, || drop(black_box(format::encode_record(5, &delta))));
    run.line(&format!("{what}: encode"), [ours, theirs]);
    let ours = side(1, || drop(black_box(decode_record(mode, &own))));
    let theirs = side(1, || drop(black_box(format::decode_record(&mut &record[..], &mut buffer).unwrap())));
    run.line(&format!("{what}: decode"), [ours, theirs]);
}

// The original's record, which the port reads in a mode.
fn same_record(mode: &Mode, record: &[u8], items: &[u8], written: selvaigo::RecordStats, buffer: &mut Vec<u8>) {
    let theirs = format::decode_record(&mut &record[..], buffer).unwrap();
    let own = in_mode(mode, record);
    let ours = decode_record(mode, &own).unwrap();
    assert!(*ours.items.bytes == *items, "the port's items differ");
    assert!(format::encode_record(5, &theirs.delta).bytes()[..] == *record, "the original's items differ");
    assert_eq!((ours.id, ours.stats), (theirs.id, written));
    assert_eq!((&ours.hash[..], &theirs.hash[..]), (&own[..32], &record[..32]));
    let (a, b) = (ours.stats, theirs.stats);
    assert_eq!(
        (a.payload_bytes, a.metadata_bytes, a.cell_bytes, a.insert_ops, a.remove_ops),
        (b.payload_bytes, b.metadata_bytes, b.cell_bytes, b.insert_ops, b.remove_ops),
    );
}

// Records of so many inserts, read into an empty nursery; the original's are decoded and applied one by one, in one stripe.
pub fn journal(run: &Run, pool: &Arc<ThreadPool>, records: u64, inserts: u64, cell: u64) {
    let mut what = format!("journal, {} records", with_commas(records));
    if inserts > 1 {
        what += &format!(" of {inserts} inserts");
    }
    if cell != 100 {
        what += &format!(", cells of {} bytes", with_commas(cell));
    }
    for (mode, name) in MODES {
        let what = format!("{what}{name}");
        if run.wanted(&what) {
            journal_in(run, &what, &mode, pool, records, inserts, cell);
        }
    }
}

fn journal_in(run: &Run, what: &str, mode: &Mode, pool: &Arc<ThreadPool>, records: u64, inserts: u64, cell: u64) {
    let delta = |i: u64| NurseryDelta {
        inserts: (i * inserts..(i + 1) * inserts).map(|k| insert_of(k, cell)).collect(),
        removes: Vec::new(),
    };
    let all: Vec<Vec<u8>> = (0..records).map(|i| format::encode_record(i, &delta(i)).bytes().to_vec()).collect();
    let own: Vec<u8> = all.iter().flat_map(|record| in_mode(mode, record)).collect();
    let journal = all.concat();
    let mut buffer = Vec::new();
    let mut original = || {
        let nursery = CellNursery::new(NonZeroUsize::MIN, pool.clone());
        let mut rest = &journal[..];
        while !rest.is_empty() {
            nursery.apply_commit(format::decode_record(&mut rest, &mut buffer).unwrap().delta);
        }
        nursery
    };
    let n = (records * inserts) as usize;
    let delay = Settings::STANDARD.delay;
    let (nursery, end) = selvaigo::read_journal(mode, &own, n, cell as usize * n, delay).unwrap();
    assert_eq!((end.applied, end.place, end.refusal), (records, journal.len(), None));
    same_entries(&original(), &nursery);

    let mut p = nursery.into_parts();
    let ours = side(1, || {
        _ = black_box(raw::read_journal(mode.key(), &own, delay, &mut p.nursery, &mut p.entries, &mut p.waiting, &mut p.cells));
    });
    let theirs = side(1, || drop(black_box(original())));
    run.line(what, [ours, theirs]);
}

// Journals of 100 MB, of short records and of long ones, without leftovers and with 8 bytes of them in each.
pub fn conversions(run: &Run) {
    let shapes = [1, 1_000].map(|inserts| (inserts, 56 + 146 * inserts));
    let names = shapes.map(|(_, len)| format!("convert, 100 MB by {} bytes", with_commas(len)));
    if !names.iter().any(|what| run.wanted(what)) {
        return;
    }
    run.head_of_conversions();
    for ((inserts, len), what) in shapes.into_iter().zip(&names) {
        let record = |i: u64| {
            let items = items_of(&(i * inserts..(i + 1) * inserts).map(insert).collect::<Vec<_>>());
            let mut out = vec![0; len as usize];
            encode_items(&Mode::Unkeyed, i, &DeltaItems::borrowed(inserts, 0, &items), &mut out).unwrap();
            out
        };
        let new: Vec<u8> = (0..100_000_000 / len).flat_map(record).collect();
        let old: Vec<u8> = new.chunks(len as usize).flat_map(with_leftovers).collect();
        for (journal, leftovers) in [(&new, false), (&old, true)] {
            let what = format!("{what}{}", if leftovers { ", 8 left over in each" } else { "" });
            if run.wanted(&what) {
                conversion(run, &what, journal, &new, if leftovers { len as usize + 8 } else { len as usize });
            }
        }
    }
}

fn with_leftovers(record: &[u8]) -> Vec<u8> {
    let stated = [&(record.len() as u64 - 32).to_le_bytes(), &record[40..], &[7; 8]].concat();
    [&selvaigo::hash(&stated)[..], &stated].concat()
}

fn conversion(run: &Run, what: &str, journal: &[u8], new: &[u8], len: usize) {
    let (mut out, mut dropped) = (vec![0; journal.len()], vec![0; journal.len() / 57 * 16]);
    let [written, listed] = raw::convert_journal(journal, &mut out, &mut dropped).unwrap();
    assert!(out[..written] == *new, "the new journal isn't the one without leftovers");
    assert_eq!(listed, if written < journal.len() { 16 * (journal.len() / len) } else { 0 });

    let ours = side(1, || _ = black_box(raw::convert_journal(journal, &mut out, &mut dropped)));
    let whole = side(1, || _ = black_box(selvaigo::hash(black_box(journal))));
    let each = side(1, || journal.chunks(len).for_each(|record| _ = black_box(selvaigo::hash(black_box(&record[32..])))));
    run.conversion(what, [ours, whole, each]);
}
