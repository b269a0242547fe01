//! Steps with the original's answers, a list for each family of calls, for the programs crates/*_vectors to replay where no Rust is at hand.
use std::fmt::Write;
use std::sync::Arc;

use rayon::ThreadPool;

use crate::compare::{self, Sides};
use crate::definition::{self, Counters, GOOD_SAVE, SHRINK_BASE, SHRINK_MAX, items};
use crate::generate::Run;
use crate::roaring::Broken;
use crate::steps::{Delta, Hex, Insert, Sizes, Step};
use crate::storage::shard_state::original::Original;

/// A box that the programs that replay the lists have room for.
const SIZES: Sizes =
    Sizes { next: (1 << 32) + 3, counts: 128, entries: 256, waiting: 160, cells: 2_048, stripes: 1, held: false };

/// The settings that the original has: they stand behind its figures in a record, and in a call for a threshold.
const SETTINGS: [u64; 3] = [SHRINK_BASE, SHRINK_MAX, GOOD_SAVE];

/// How many there are, beside those that look at what a step left.
const STEPS: usize = 300;

/// Bytes of a call.
fn longest(step: &Step) -> usize {
    match step {
        Step::Journal { .. } => 1_200,
        Step::Read(_) => 460,
        Step::Encode(..) => 289,
        _ => 280,
    }
}

/// Bytes of a list that a program has room for.
const ROOM: usize = 280_000;

/// At most so many of a kind, by its place in `KINDS`: snapshots are long.
fn most(step: &Step) -> usize {
    match step {
        Step::Journal { .. } => 5,
        Step::Snapshot(_) | Step::Listing(_) => 12,
        Step::Read(_) | Step::Decode(_) | Step::Hash(_) | Step::Encode(..) => 24,
        Step::Batch(_) | Step::Delta(_) => 80,
        _ => 50,
    }
}

/// Whether the original answers it as document 01 does, and the list has a form for it.
fn fits(step: &Step, sides: &Sides) -> bool {
    match step {
        Step::New(_) | Step::Figures(_) | Step::ReadBack | Step::Empty => false,
        Step::Allocate => sides.counters.next < u64::MAX,
        Step::Get(idx) => *idx < sides.counters.next,
        Step::Batch(batch) => sides.counters.clone().apply_batch(batch, SIZES.counts / 2).is_ok(),
        Step::Read(bytes) => match Counters::read(bytes, SIZES.counts / 2) {
            // Enough indices have to be allocated for what follows.
            Ok(c) => c.next > 1 << 32,
            Err((_, rule)) => rule == Broken::Refused,
        },
        // It keeps runs that it read.
        Step::Snapshot(_) => !sides.runs,
        Step::Delta(delta) => !sides.nursery.put_back(delta) && sides.nursery.clone().apply_commit(delta, &SIZES).is_ok(),
        Step::Encode(_, delta, _) => delta.inserts.iter().all(|i| i.cell.len() <= 65_535),
        Step::Decode(bytes) => match definition::decode(bytes, &Original::hash) {
            Ok(_) | Err(17 | 18) => true,
            Err(16) => definition::stated(bytes).is_none_or(|n| n < 1 << 20),
            Err(_) => false,
        },
        Step::Journal { more, flip, keep, .. } => more.is_empty() && flip.is_none() && *keep,
        _ => true,
    }
}

/// How many inserts and removes there are.
fn counts(delta: &Delta) -> [u64; 2] {
    [delta.inserts.len() as u64, delta.removes.len() as u64]
}

fn words(all: &[u64]) -> Vec<u8> {
    all.iter().flat_map(|n| n.to_le_bytes()).collect()
}

fn listing(entries: &[Insert]) -> Vec<u8> {
    let mut out = Vec::new();
    definition::write_inserts(entries, false, &mut out);
    out
}

/// A call's kind and its bytes; src/main.rt of the family's program says what they are.
fn call(step: &Step, journal: &[u8]) -> (u8, Vec<u8>) {
    match step {
        Step::Batch(batch) => (0x02, words(&batch.concat())),
        Step::Read(bytes) => (0x03, bytes.clone()),
        Step::Allocate => (0x05, Vec::new()),
        Step::Shrink(saved) => (0x06, words(&[*saved])),
        Step::Get(idx) => (0x07, words(&[*idx])),
        Step::Snapshot(_) => (0x08, Vec::new()),
        Step::Delta(delta) => (0x10, [words(&counts(delta)), items(delta, false)].concat()),
        Step::Drain(round, _) => (0x12, words(&[u64::from(*round)])),
        Step::Journal { .. } => (0x11, journal.to_vec()),
        Step::Lookup(hash) => (0x13, hash.to_vec()),
        Step::Listing(_) => (0x15, Vec::new()),
        Step::Hash(bytes) => (0x20, bytes.clone()),
        Step::Encode(id, delta, _) => (0x22, [words(&[*id]), words(&counts(delta)), vec![0], items(delta, false)].concat()),
        Step::Decode(bytes) => (0x23, bytes.clone()),
        Step::ShouldShrink(all) => (0x25, words(all)),
        Step::Adjust(all) => (0x26, [words(all), words(&SETTINGS)].concat()),
        other => unreachable!("{other}"),
    }
}

/// What the original says to it.
fn answer(o: &mut Original, step: &Step, journal: &[u8]) -> Vec<u8> {
    match step {
        Step::Batch(batch) => o.apply_batch(batch),
        Step::Read(bytes) => return vec![o.deserialize_trusted(bytes).map_or_else(|said| compare::number_of(&said), |()| 0)],
        Step::Allocate => return taken(&[o.alloc_idx()]),
        Step::Shrink(saved) => o.shrink_if_needed(*saved),
        Step::Get(idx) => return taken(&[o.get(*idx)]),
        Step::Snapshot(_) => {
            let (snapshot, large) = o.serialize();
            return written(&compare::sorted(&snapshot, large));
        }
        Step::Delta(delta) => {
            o.apply_commit(delta);
            return taken(&[0, 0]);
        }
        Step::Drain(round, _) => return written(&drained(o, *round)),
        Step::Journal { .. } => return read_journal(o, journal),
        Step::Lookup(hash) => return taken(&o.lookup(hash).map_or([0, 0], |(idx, _)| [1, idx])),
        Step::Listing(_) => return written(&listing(&o.snapshot_entries())),
        Step::Hash(bytes) => return Original::hash(bytes).to_vec(),
        Step::Encode(id, delta, _) => {
            let (record, stats) = Original::encode_record(*id, delta);
            return [taken(&[record.len() as u64]), words(&stats), record, vec![UNTOUCHED]].concat();
        }
        Step::Decode(bytes) => return decoded(o, bytes),
        Step::ShouldShrink([alive, removed, min]) => return vec![u8::from(Original::should_shrink(*alive, *removed, *min))],
        Step::Adjust([min, saved]) => return words(&[Original::adjust_shrink_threshold(*min, *saved)]),
        other => unreachable!("{other}"),
    }
    vec![0]
}

/// What a byte of an output is before a call; each has one more than the call writes.
const UNTOUCHED: u8 = 0x99;

/// 0, and the words that a call gives.
fn taken(all: &[u64]) -> Vec<u8> {
    [vec![0], words(all)].concat()
}

fn written(bytes: &[u8]) -> Vec<u8> {
    [taken(&[bytes.len() as u64]), bytes.to_vec(), vec![UNTOUCHED]].concat()
}

/// Calls that look at what a step left, with their answers.
fn looks(o: &Original, step: &Step) -> Vec<((u8, Vec<u8>), Vec<u8>)> {
    let record = ((0x0a, Vec::new()), [taken(&o.totals()), words(&SETTINGS)].concat());
    let totals = ((0x16, Vec::new()), taken(&o.nursery_totals()));
    match step {
        Step::Allocate | Step::Batch(_) | Step::Delta(_) => vec![record, totals],
        Step::Read(_) | Step::Shrink(_) => vec![record],
        Step::Journal { .. } => vec![((0x15, Vec::new()), written(&listing(&o.snapshot_entries())))],
        Step::Lookup(hash) => {
            let cell = o.lookup(hash).map_or(taken(&[0]), |(_, cell)| [taken(&[1]), cell].concat());
            vec![((0x14, hash.to_vec()), cell)]
        }
        _ => Vec::new(),
    }
}

fn drained(o: &mut Original, round: u32) -> Vec<u8> {
    let mut out = Vec::new();
    for (hash, idx, cell) in o.drain_promotable(round) {
        out.extend(hash);
        out.extend(idx.to_le_bytes());
        out.extend((cell.len() as u16).to_le_bytes());
        out.extend(cell);
    }
    out
}

/// Id, place and length of the items, five figures, hash; zeros beside a refusal.
fn decoded(o: &mut Original, bytes: &[u8]) -> Vec<u8> {
    match o.decode_record(bytes) {
        Ok(d) => [taken(&[d.id, 56, d.stats[0] - 16]), words(&d.stats), d.hash.to_vec()].concat(),
        Err(said) => {
            let number = if said.contains("mismatch") {
                18
            } else if said.contains("too big") {
                17
            } else {
                16
            };
            [vec![number], vec![0; 96]].concat()
        }
    }
}

/// Its records one by one, until one isn't all there: none of these journals is damaged, and no delta of them refused.
fn read_journal(o: &mut Original, journal: &[u8]) -> Vec<u8> {
    let mut records = 0;
    while o.read_records(journal, records + 1, false).is_ok() {
        records += 1;
    }
    let (_, place) = o.read_records(journal, records, true).unwrap();
    let ended = if place == journal.len() { 0 } else { 16 };
    taken(&[records as u64, place as u64, ended])
}

/// The steps, each with the journal that it reads.
fn steps(seed: u64, pool: Arc<ThreadPool>) -> Vec<(Step, Vec<u8>)> {
    let mut run = Run::sample(seed, SIZES);
    let mut sides = Sides::new(SIZES, pool, false);
    let mut all: Vec<(Step, Vec<u8>)> = Vec::new();
    while all.len() < STEPS {
        let step = run.step(&sides);
        let of_kind = all.iter().filter(|(s, _)| s.kind() == step.kind()).count();
        let journal = sides.cut_journal(&step);
        if of_kind >= most(&step) || !fits(&step, &sides) || call(&step, &journal).1.len() > longest(&step) {
            continue;
        }
        sides.step(&step).expect("no difference");
        all.push((step, journal));
    }
    all
}

/// The programs of the families, by the first digit of a call's kind.
const PROGRAMS: [&str; 3] = ["counter_vectors", "nursery_vectors", "record_vectors"];

/// The lists, with the two lines of a step more in its family's.
fn lines(lists: &mut [String; 3], (kind, bytes): &(u8, Vec<u8>), answer: &[u8]) {
    let hex = |bytes: &[u8]| if bytes.is_empty() { String::new() } else { Hex(bytes).to_string() };
    writeln!(lists[usize::from(kind / 16)], "{kind:02x}{}\n{}", hex(bytes), hex(answer)).unwrap();
}

/// Writes the lists into the programs under the folder of crates.
pub fn write(crates: &str, seed: u64, pool: Arc<ThreadPool>) {
    let steps = steps(seed, pool.clone());
    let mut o = Original::new(SIZES.next, SIZES.stripes, pool);
    let head = format!(
        "# Calls and what the original Rust answers to them, one after the other on one box. Made by `differential/run.sh --sample --seed {seed}`, which\n\
         # runs the original's files unchanged; the large counts of its snapshots are put in order of their indices.\n"
    );
    let mut lists = [head.clone(), head.clone(), head];
    lines(&mut lists, &(0x01, words(&[SIZES.next])), &[0]);
    for (step, journal) in &steps {
        lines(&mut lists, &call(step, journal), &answer(&mut o, step, journal));
        for (call, answer) in looks(&o, step) {
            lines(&mut lists, &call, &answer);
        }
    }
    for (program, text) in PROGRAMS.iter().zip(lists) {
        assert!(text.len() < ROOM, "a long list: take another seed");
        let path = format!("{crates}/{program}/data/original");
        std::fs::write(&path, text).expect(&path);
    }
    println!("{} steps written to {crates}", steps.len());
}
