//! A step on all three: the definition says what is to come, the port has to answer just that, and so has the original wherever document 01
//! doesn't say otherwise.
use std::collections::{BTreeMap, BTreeSet};
use std::fmt::Debug;
use std::panic::{AssertUnwindSafe, catch_unwind};
use std::sync::Arc;

use rayon::ThreadPool;

use crate::definition::{self, Counters, Drained, Ended, Nursery, decode, kept, parse};
use crate::port::Port;
use crate::roaring::{Broken, Bytes};
use crate::steps::{Delta, Hash, Insert, KINDS, Room, Sizes, Step};
use crate::storage::shard_state::original::Original;

/// How much was compared.
#[derive(Clone, Default)]
pub struct Tally {
    pub steps: [u64; KINDS.len()],
    pub refused: [u64; 26],
    /// Snapshots that were loaded with the live total that they have, and with it raised.
    pub loaded: [u64; 2],
    /// How journals were read, and the number that ended them or that the damaged record is refused with.
    pub journals: BTreeMap<(&'static str, u8), u64>,
    /// Journals that were converted, by whether they had leftovers and by the number that their records end with, leftovers or not.
    pub converted: BTreeMap<(&'static str, u8), u64>,
    /// Records with leftovers among them.
    pub dropped: u64,
    /// Steps that meet a difference of docs/DIFFERENCES.md, by its number there and by what the original did.
    pub known: BTreeMap<(&'static str, &'static str), u64>,
    pub transitions: u64,
    pub items: u64,
    pub bytes: u64,
}

impl Tally {
    fn know(&mut self, what: &'static str, theirs: &'static str) {
        *self.known.entry((what, theirs)).or_default() += 1;
    }

    fn journal(&mut self, how: &'static str, number: u8) {
        *self.journals.entry((how, number)).or_default() += 1;
    }

    pub fn add(&mut self, other: &Tally) {
        self.steps.iter_mut().zip(other.steps).for_each(|(a, b)| *a += b);
        self.refused.iter_mut().zip(other.refused).for_each(|(a, b)| *a += b);
        self.loaded.iter_mut().zip(other.loaded).for_each(|(a, b)| *a += b);
        other.journals.iter().for_each(|(how, n)| *self.journals.entry(*how).or_default() += n);
        other.converted.iter().for_each(|(what, n)| *self.converted.entry(*what).or_default() += n);
        self.dropped += other.dropped;
        other.known.iter().for_each(|(what, n)| *self.known.entry(*what).or_default() += n);
        self.transitions += other.transitions;
        self.items += other.items;
        self.bytes += other.bytes;
    }

    pub fn total(&self) -> u64 {
        self.steps.iter().sum()
    }
}

pub struct Sides {
    pub sizes: Sizes,
    pub counters: Counters,
    pub nursery: Nursery,
    pub journal: Vec<u8>,
    pub original: Original,
    port: Port,
    records: u64,
    /// The original may have containers of runs.
    pub runs: bool,
    /// The original may hand out hashes twice.
    doubles: bool,
    /// The port is told something else in each batch, to see that it is found.
    lie: bool,
    pub tally: Tally,
}

type Compared = Result<(), String>;

/// What was loaded of a snapshot, and the live total that it has.
struct Loaded {
    defined: Counters,
    port: selvaigo::Counters,
    old_total: u64,
}

fn shown(value: &impl Debug) -> String {
    let mut text = format!("{value:?}");
    if text.len() > 400 {
        let cut = (0..=400).rev().find(|i| text.is_char_boundary(*i)).unwrap();
        text.truncate(cut);
        text += "..";
    }
    text
}

fn same<T: PartialEq + Debug>(whose: &str, what: &str, is: &T, wanted: &T) -> Compared {
    if is == wanted {
        return Ok(());
    }
    Err(format!("{whose}: {what} is {}, wanted {}", shown(is), shown(wanted)))
}

/// An output that is lent, and what it holds before the call.
const BEFORE: u8 = 0xa5;

fn output(len: usize, room: Room) -> Vec<u8> {
    vec![BEFORE; if room == Room::More { len + 9 } else { len - usize::from(room == Room::Less && len > 0) }]
}

/// The output after the call: the answer and nothing else, or nothing at all.
fn written(what: &str, out: &[u8], answer: Result<usize, u8>, wanted: &[u8]) -> Compared {
    let refused = out.len() < wanted.len();
    same("port", what, &answer, &if refused { Err(15) } else { Ok(wanted.len()) })?;
    let (front, rest) = out.split_at(if refused { 0 } else { wanted.len() });
    same("port", what, &front, &if refused { &[][..] } else { wanted })?;
    same("port", "output beyond the answer", &rest.iter().all(|b| *b == BEFORE), &true)
}

/// A snapshot with its large entries by ascending index.
pub fn sorted(snapshot: &[u8], large: usize) -> Vec<u8> {
    let (front, back) = snapshot.split_at(snapshot.len() - 16 * large);
    let mut entries: Vec<&[u8]> = back.chunks_exact(16).collect();
    entries.sort_by_key(|e| u64::from_le_bytes(e[..8].try_into().unwrap()));
    [front, &entries.concat()].concat()
}

/// Each hash where it stands last.
fn once(all: Drained) -> Drained {
    let mut seen = BTreeSet::new();
    let mut kept: Drained = all.into_iter().rev().filter(|d| seen.insert(d.0)).collect();
    kept.reverse();
    kept
}

/// The refusal that the original's words stand for.
pub fn number_of(said: &str) -> u8 {
    let words = [("version", 7), ("empty", 8), ("unexpected end", 8), ("bitmap", 9), ("big ", 10)];
    words.iter().find(|(word, _)| said.contains(word)).map_or(0, |(_, n)| *n)
}

/// What the library makes of a bad bitmap, found out in a child process: it may crash.
fn guarded(takes: impl FnOnce() -> bool) -> &'static str {
    // SAFETY: the child reads one snapshot and ends; the parent waits for it.
    unsafe {
        let child = libc::fork();
        if child == 0 {
            let taken = catch_unwind(AssertUnwindSafe(takes)).is_ok_and(|t| t);
            libc::_exit(i32::from(!taken));
        }
        let mut status = 0;
        libc::waitpid(child, &mut status, 0);
        match (libc::WIFEXITED(status), libc::WEXITSTATUS(status)) {
            (true, 0) => "takes it",
            (true, _) => "refuses it too",
            _ => "crashes",
        }
    }
}

fn text_of(panic: Box<dyn std::any::Any + Send>) -> String {
    match panic.downcast::<String>() {
        Ok(text) => *text,
        Err(other) => other.downcast_ref::<&str>().unwrap_or(&"a panic").to_string(),
    }
}

impl Sides {
    pub fn new(sizes: Sizes, pool: Arc<ThreadPool>, lie: bool) -> Self {
        Sides {
            sizes,
            counters: Counters::new(sizes.next),
            nursery: Nursery::default(),
            journal: Vec::new(),
            original: Original::new(sizes.next, sizes.stripes, pool),
            port: Port::new(&sizes),
            records: 0,
            runs: false,
            doubles: false,
            lie,
            tally: Tally::default(),
        }
    }

    /// The step; what differs, if something does. A panic that isn't foreseen is a difference.
    pub fn step(&mut self, step: &Step) -> Compared {
        self.tally.steps[step.kind()] += 1;
        catch_unwind(AssertUnwindSafe(|| self.compare(step))).unwrap_or_else(|panic| Err(text_of(panic)))
    }

    fn compare(&mut self, step: &Step) -> Compared {
        match step {
            Step::New(next) => self.new_counters(*next),
            Step::Allocate => self.allocate(),
            Step::Batch(batch) => self.batch(batch),
            Step::Get(idx) => self.get(*idx),
            Step::Figures(figures) => self.figures(figures),
            Step::Shrink(saved) => self.shrink(*saved),
            Step::ShouldShrink([alive, removed, min]) => self.should_shrink(*alive, *removed, *min),
            Step::Adjust([min, saved]) => self.adjust(*min, *saved),
            Step::Snapshot(room) => self.snapshot(*room),
            Step::ReadBack => self.read_back(),
            Step::Read(bytes) => self.read(bytes),
            Step::Empty => self.empty(),
            Step::Delta(delta) => self.delta(delta),
            Step::Drain(round, room) => self.drain(*round, *room),
            Step::Lookup(hash) => self.lookup(hash),
            Step::Listing(room) => self.listing(*room),
            Step::Encode(id, delta, room) => self.encode(*id, delta, *room).map(|_| ()),
            Step::Decode(bytes) => self.decode(bytes),
            Step::Journal { keep, .. } => self.read_journal(self.cut_journal(step), *keep),
            Step::Hash(bytes) => self.hash(bytes),
        }
    }

    /// The port's answer is the definition's; whether the call is taken.
    fn answered<T: PartialEq + Debug>(&mut self, port: Result<T, u8>, wanted: Result<T, u8>) -> Result<bool, String> {
        same("port", "answer", &port, &wanted)?;
        if let Err(number) = wanted {
            self.tally.refused[usize::from(number)] += 1;
        }
        Ok(wanted.is_ok())
    }

    fn totals(&self) -> Compared {
        same("port", "counters' record", self.port.counters.state(), &self.counters.record())?;
        same("original", "counters' totals", &self.original.totals(), &self.counters.totals())
    }

    fn new_counters(&mut self, next: u64) -> Compared {
        self.counters = Counters::new(next);
        self.port.new_counters(next);
        self.original.new_counters(next);
        self.runs = false;
        self.totals()
    }

    fn allocate(&mut self) -> Compared {
        let wanted = self.counters.alloc_idx();
        let port = self.port.alloc_idx();
        if self.answered(port, wanted)? {
            same("original", "index", &Ok(self.original.alloc_idx()), &wanted)?;
        }
        self.totals()
    }

    fn batch(&mut self, batch: &[[u64; 3]]) -> Compared {
        self.tally.transitions += batch.len() as u64;
        let wanted = self.counters.apply_batch(batch, self.sizes.counts / 2);
        let mut told = batch.to_vec();
        if let (true, Some(last)) = (self.lie, told.last_mut()) {
            last[2] += u64::from(last[1] < 256 && last[2] == 256);
        }
        let port = self.port.apply_batch(&told);
        if self.answered(port, wanted)? {
            self.original.apply_batch(batch);
        } else if wanted == Err(25) {
            self.few_cells(batch)?;
        }
        self.totals()
    }

    /// A batch that leaves fewer cells than counts: the original, asked on a copy, takes it.
    fn few_cells(&mut self, batch: &[[u64; 3]]) -> Compared {
        self.tally.know("C16, C17", "takes it");
        let (wanted, kept) = (self.counters.with_few_cells(batch), kept(batch));
        let (totals, counts) = self.original.with_few_cells(&kept);
        same("original", "totals with few cells", &totals, &wanted.totals())?;
        let wanted: Result<Vec<u64>, u8> = kept.iter().map(|t| wanted.get(t[0])).collect();
        same("original", "counts with few cells", &Ok(counts), &wanted)
    }

    fn get(&mut self, idx: u64) -> Compared {
        let wanted = self.counters.get(idx);
        let port = self.port.get(idx);
        if self.answered(port, wanted)? {
            same("original", "count", &Ok(self.original.get(idx)), &wanted)?;
        }
        Ok(())
    }

    fn figures(&mut self, figures: &[u64; 10]) -> Compared {
        self.counters.figures = *figures;
        self.port.set_figures(figures);
        self.original.set_figures(figures);
        self.totals()
    }

    fn shrink(&mut self, saved: u64) -> Compared {
        let before = self.original.totals();
        let wanted = self.counters.shrink_if_needed(saved);
        same("port", "sets to shrink", &self.port.shrink_if_needed(saved), &wanted)?;
        self.original.shrink_if_needed(saved);
        let after = self.original.totals();
        let fell: [u64; 9] = std::array::from_fn(|i| u64::from(before[i + 3] != after[i + 3]));
        same("original", "removals set to 0", &fell, &wanted)?;
        self.totals()
    }

    fn should_shrink(&mut self, alive: u64, removed: u64, min: u64) -> Compared {
        let wanted = definition::should_shrink(alive, removed, min);
        same("port", "should_shrink", &selvaigo::should_shrink(alive, removed, min), &wanted)?;
        same("original", "should_shrink", &Original::should_shrink(alive, removed, min), &wanted)
    }

    fn adjust(&mut self, min: u64, saved: u64) -> Compared {
        let wanted = definition::adjust(min, saved);
        same("port", "threshold", &Port::adjust_shrink_threshold(min, saved), &wanted)?;
        same("original", "threshold", &Original::adjust_shrink_threshold(min, saved), &wanted)
    }

    fn snapshot(&mut self, room: Room) -> Compared {
        let wanted = self.counters.serialize();
        self.tally.bytes += wanted.len() as u64;
        same("port", "serialized_len", &self.port.serialized_len(), &wanted.len())?;
        let mut out = output(wanted.len(), room);
        let answer = self.port.serialize(&mut out);
        written("snapshot", &out, answer, &wanted)?;
        self.tally.refused[15] += u64::from(answer.is_err());
        let (theirs, large) = self.original.serialize();
        let theirs = sorted(&theirs, large);
        if self.runs && theirs != wanted {
            self.tally.know("S2", "keeps runs");
            let read =
                Counters::read(&theirs, usize::MAX).map_err(|e| format!("original: a snapshot that is no snapshot: {e:?}"))?;
            return same("original", "snapshot without its runs", &read.serialize(), &wanted);
        }
        same("original", "snapshot", &theirs, &wanted)
    }

    fn read_back(&mut self) -> Compared {
        let (theirs, _) = self.original.serialize();
        let mut ours = vec![0; self.port.serialized_len()];
        self.port.serialize(&mut ours).map_err(|n| format!("port: no snapshot: {n}"))?;
        self.tally.bytes += (theirs.len() + ours.len()) as u64;
        self.counters = Counters::read(&theirs, self.sizes.counts / 2).map_err(|e| format!("original: no snapshot: {e:?}"))?;
        same("port", "answer to the original's snapshot", &self.port.deserialize_trusted(&theirs), &Ok(()))?;
        same("original", "answer to the port's snapshot", &self.original.deserialize_trusted(&ours), &Ok(()))?;
        self.runs = false;
        self.totals()
    }

    fn read(&mut self, bytes: &[u8]) -> Compared {
        self.tally.bytes += bytes.len() as u64;
        let read = Counters::read(bytes, self.sizes.counts / 2);
        let port = self.port.deserialize_trusted(bytes);
        let wanted = read.as_ref().map(|_| ()).map_err(|e| e.0);
        self.answered(port, wanted)?;
        let loaded = self.load(bytes)?;
        match read {
            Ok(counters) => {
                same("original", "answer", &self.original.deserialize_trusted(bytes), &Ok(()))?;
                self.counters = counters;
                let (theirs, large) = self.original.serialize();
                self.runs = sorted(&theirs, large) != self.counters.serialize();
            }
            Err((25, Broken::Tolerated(rule))) => {
                self.tally.know(rule, "takes it");
                self.go_on_loaded(bytes, loaded.ok_or("definition: 25 and nothing loaded")?)?;
            }
            Err((number, Broken::Refused)) => {
                let said = self.original.deserialize_trusted(bytes).err().unwrap_or("taken".into());
                same("original", "refusal", &number_of(&said), &number)?;
            }
            Err((9, Broken::Tolerated(rule))) => {
                let theirs = guarded(|| self.original.takes(bytes));
                self.tally.know(rule, theirs);
            }
            Err((_, Broken::Tolerated(rule))) => {
                self.tally.know(rule, "takes it");
                same("original", "taking a snapshot", &self.original.takes(bytes), &true)?;
            }
        }
        self.totals()
    }

    /// Loading is what the definition says, refusals included: what it gives where it is taken.
    fn load(&mut self, bytes: &[u8]) -> Result<Option<Loaded>, String> {
        let wanted = Counters::load(bytes, self.sizes.counts / 2);
        let port = self.port.load_snapshot(bytes);
        let said = port.as_ref().map(|(c, old)| (*c.state(), *old)).map_err(|number| *number);
        same("port", "loading", &said, &wanted.as_ref().map(|(c, old)| (c.record(), *old)).map_err(|e| e.0))?;
        let (Ok((port, _)), Ok((defined, old_total))) = (port, wanted) else { return Ok(None) };
        same("port", "loaded counts", &port.iter().map(|(idx, n)| (idx.get(), n.get())).collect(), &defined.counts)?;
        self.tally.loaded[usize::from(defined.live != old_total)] += 1;
        Ok(Some(Loaded { defined, port, old_total }))
    }

    /// A snapshot with fewer cells than counts: the original takes it, with the old total and the same counts. From here on the port has
    /// what it loaded, and the original reads what the port writes of that.
    fn go_on_loaded(&mut self, bytes: &[u8], Loaded { defined, port, old_total }: Loaded) -> Compared {
        same("original", "answer", &self.original.deserialize_trusted(bytes), &Ok(()))?;
        let mut wanted = defined.totals();
        wanted[1] = old_total;
        same("original", "totals with few cells", &self.original.totals(), &wanted)?;
        let (theirs, large) = self.original.serialize();
        let theirs = Counters::parse(&sorted(&theirs, large), usize::MAX).map_err(|e| format!("original: no snapshot: {e:?}"))?;
        same("original", "counts with few cells", &theirs.counts, &defined.counts)?;
        let answer = self.original.deserialize_trusted(&port.serialize());
        same("original", "answer to what was loaded", &answer, &Ok(()))?;
        (self.counters, self.port.counters, self.runs) = (defined, port, false);
        Ok(())
    }

    fn empty(&mut self) -> Compared {
        self.nursery = Nursery::default();
        self.journal.clear();
        self.port.new_nursery(&self.sizes);
        self.original.new_nursery();
        self.doubles = false;
        self.nursery_totals()
    }

    fn nursery_totals(&self) -> Compared {
        let wanted = self.nursery.record();
        same("port", "nursery's record", self.port.nursery.nursery(), &wanted)?;
        same("original", "nursery's totals", &self.original.nursery_totals(), &[wanted[0], wanted[2]])
    }

    fn delta(&mut self, delta: &Delta) -> Compared {
        self.tally.items += (delta.inserts.len() + delta.removes.len()) as u64;
        let put_back = self.nursery.put_back(delta);
        let wanted = self.nursery.apply_commit(delta, &self.sizes);
        let port = self.port.apply_commit(delta);
        if self.answered(port, wanted)? {
            self.doubles |= put_back;
            self.original.apply_commit(delta);
            self.records += 1;
            let record = self.encode(self.records, delta, Room::Exact)?;
            if *delta != Delta::default() {
                self.journal.extend(record);
            }
        }
        self.nursery_totals()
    }

    fn drain(&mut self, round: u32, room: Room) -> Compared {
        let (wanted, len) = self.nursery.due(round);
        let mut out = output(len, room);
        let answer = self.port.drain_promotable(round, &mut out);
        if out.len() < len {
            self.tally.refused[15] += 1;
            written("drain", &out, answer, &vec![0; len])?;
            return self.nursery_totals();
        }
        same("port", "drained bytes", &answer, &Ok(len))?;
        same("port", "drained", &Port::drained(&out[..len]), &wanted)?;
        same("port", "output beyond the answer", &out[len..].iter().all(|b| *b == BEFORE), &true)?;
        self.tally.items += wanted.len() as u64;
        let mut theirs = self.original.drain_promotable(round);
        if self.doubles && theirs.len() > wanted.len() {
            self.tally.know("N4, N5", "hands out twice");
            theirs = once(theirs);
        }
        same("original", "drained", &theirs, &wanted)?;
        self.nursery.drain(round);
        self.nursery_totals()
    }

    fn lookup(&mut self, hash: &Hash) -> Compared {
        let wanted = self.nursery.lookup(hash).map(|(idx, cell)| (idx, cell.to_vec()));
        same("port", "entry", &self.port.lookup(hash), &wanted)?;
        same("original", "entry", &self.original.lookup(hash), &wanted)
    }

    fn listing(&mut self, room: Room) -> Compared {
        let entries = self.nursery.listing();
        let wanted = bytes_of(&entries);
        self.tally.bytes += wanted.len() as u64;
        let mut out = output(wanted.len(), room);
        let answer = self.port.snapshot_entries(&mut out);
        written("listing", &out, answer, &wanted)?;
        self.tally.refused[15] += u64::from(answer.is_err());
        same("original", "listing", &self.original.snapshot_entries(), &entries)
    }

    /// The record.
    fn encode(&mut self, id: u64, delta: &Delta, room: Room) -> Result<Vec<u8>, String> {
        if delta.inserts.iter().any(|i| i.cell.len() > 65_535) {
            let mut out = output(0, Room::More);
            self.answered(Port::encode_record(id, delta, &mut out), Err(14))?;
            self.tally.know("N6", "not run");
            return Ok(Vec::new());
        }
        let (record, stats) = Original::encode_record(id, delta);
        self.tally.bytes += record.len() as u64;
        let mut out = output(record.len(), room);
        let answer = Port::encode_record(id, delta, &mut out);
        written("record", &out, answer.map(|a| a.0), &record)?;
        self.tally.refused[15] += u64::from(answer.is_err());
        same("port", "figures", &answer.map_or(stats, |a| a.1), &stats)?;
        let d = definition::decode(&record, &Original::hash).map_err(|n| format!("original: its record is refused with {n}"))?;
        same("original", "record's figures", &(d.id, d.stats), &(id, stats))?;
        same("original", "record's delta", &d.delta, delta)?;
        Ok(record)
    }

    fn decode(&mut self, bytes: &[u8]) -> Compared {
        self.tally.bytes += bytes.len() as u64;
        let wanted = definition::decode(bytes, &Original::hash);
        let port = Port::decode_record(bytes);
        let Ok(wanted) = wanted else {
            let number = wanted.err().unwrap();
            self.answered(port.map(|_| ()), Err(number))?;
            return self.original_refuses(bytes, number);
        };
        let d = port.map_err(|n| format!("port: a record is refused with {n}"))?;
        same("port", "record", &(d.id, d.hash, d.stats), &(wanted.id, wanted.hash, wanted.stats))?;
        same("port", "items", &d.items, &&bytes[56..40 + wanted.payload])?;
        self.original_takes(bytes, &wanted)
    }

    fn original_takes(&mut self, bytes: &[u8], wanted: &definition::Decoded) -> Compared {
        let theirs = self.original.decode_record(bytes).map_err(|e| format!("original: a record is refused: {e}"))?;
        same("original", "record", &(theirs.id, theirs.hash, theirs.stats), &(wanted.id, wanted.hash, wanted.stats))?;
        same("original", "record's delta", &theirs.delta, &wanted.delta)?;
        same("original", "bytes left", &theirs.unread, &(bytes.len() - 40 - wanted.payload))
    }

    /// What the original makes of a record that the port refuses.
    fn original_refuses(&mut self, bytes: &[u8], number: u8) -> Compared {
        let stated = definition::stated(bytes).unwrap_or(0);
        let panics = match number {
            22 => {
                self.tally.know("R7", "takes it");
                let wanted = definition::parse(bytes, &Original::hash).map_err(|n| format!("definition: {n} and 22"))?;
                return self.original_takes(bytes, &wanted);
            }
            16 if stated >= (1 << 63) - 8 => Some("R5"),
            16 if stated > 1 << 20 => {
                self.tally.know("R6", "not run");
                return Ok(());
            }
            19 if stated < 16 => Some("R1"),
            19 => {
                let (_, inserts, removes) = definition::read_counts(&mut Bytes(&bytes[40..])).unwrap();
                if inserts + removes > 1 << 16 {
                    self.tally.know("R4", "not run");
                    return Ok(());
                }
                Some("R2, R3")
            }
            _ => None,
        };
        let theirs = catch_unwind(AssertUnwindSafe(|| self.original.decode_record(bytes).map(|_| ())));
        same("original", "panic over a record", &theirs.is_err(), &panics.is_some())?;
        if let Some(known) = panics {
            self.tally.know(known, "panics");
        }
        same("original", "taking a record", &theirs.unwrap_or(Err("panic".into())).is_ok(), &false)
    }

    /// The journal that a step reads.
    pub fn cut_journal(&self, step: &Step) -> Vec<u8> {
        let Step::Journal { cut, more, flip, .. } = step else { return Vec::new() };
        let mut journal = self.journal.clone();
        journal.truncate((cut % (journal.len() as u64 + 1)) as usize);
        journal.extend(more);
        if let (Some(flip), false) = (flip, journal.is_empty()) {
            let bit = flip % (8 * journal.len() as u64);
            journal[(bit / 8) as usize] ^= 1 << (bit % 8);
        }
        journal
    }

    fn read_journal(&mut self, journal: Vec<u8>, keep: bool) -> Compared {
        self.tally.bytes += journal.len() as u64;
        self.convert(&journal)?;
        let scan = definition::scan(decode, &journal, &Original::hash);
        same("port", "scan", &Port::scan_journal(&journal), &scan)?;
        let wanted = definition::read_journal(decode, &journal, &self.sizes, &Original::hash);
        let port = self.port.read_journal(&journal, &self.sizes, keep);
        let said = wanted.as_ref().map(|(nursery, ended)| (*ended, bytes_of(&nursery.listing()))).map_err(|number| *number);
        self.answered(port, said)?;
        match wanted {
            Ok((nursery, ended)) => self.journal_read(&journal, nursery, ended, keep),
            Err(_) => self.journal_damaged(&journal, scan),
        }
    }

    /// A journal that is read: the original has the same nursery after as many records, and refuses one that is cut.
    fn journal_read(&mut self, journal: &[u8], nursery: Nursery, (applied, place, number): Ended, keep: bool) -> Compared {
        let theirs = self.original.read_records(journal, applied, keep);
        same("original", "journal", &theirs, &Ok((nursery.listing(), place)))?;
        if number == 16 {
            self.original_refuses(&journal[place..], number)?;
        }
        let how = match number {
            0 => "whole",
            16 => "cut",
            _ => "delta refused",
        };
        self.tally.journal(how, number);
        if keep {
            self.journal = journal[..place].to_vec();
            self.nursery = nursery;
            self.doubles = true;
        }
        self.nursery_totals()
    }

    /// The port's new journal and list are the definition's, or a short output is refused and neither is touched.
    fn convert(&mut self, journal: &[u8]) -> Compared {
        let (new, dropped) = definition::convert(journal, &Original::hash);
        let list: Vec<u8> = dropped.iter().flatten().flat_map(|n| n.to_le_bytes()).collect();
        for (room, list_room) in [(Room::Exact, Room::Exact), (Room::More, Room::Less), (Room::Less, Room::More)] {
            let (mut out, mut listed) = (output(new.len(), room), output(list.len(), list_room));
            let refused = out.len() < new.len() || listed.len() < list.len();
            let answer = Port::convert_journal(journal, &mut out, &mut listed);
            self.answered(answer, if refused { Err(15) } else { Ok([new.len(), list.len()]) })?;
            let wanted = if refused { [&[][..], &[]] } else { [&new[..], &list] };
            for (what, out, wanted) in [("new journal", out, wanted[0]), ("list of what is dropped", listed, wanted[1])] {
                same("port", what, &&out[..wanted.len()], &wanted)?;
                same("port", "output beyond the answer", &out[wanted.len()..].iter().all(|b| *b == BEFORE), &true)?;
            }
        }
        let ended = definition::scan(parse, journal, &Original::hash).2;
        let what = if dropped.is_empty() { "without leftovers" } else { "with leftovers" };
        *self.tally.converted.entry((what, ended)).or_default() += 1;
        self.tally.dropped += dropped.len() as u64;
        if dropped.is_empty() {
            return same("definition", "new journal", &&new[..], &journal);
        }
        self.same_records(journal, &new, &dropped)
    }

    /// The old journal means to the original what the new one means to it and to the port.
    fn same_records(&mut self, old: &[u8], new: &[u8], dropped: &[[u64; 2]]) -> Compared {
        let moved = |(records, place, number): Ended| {
            let before = dropped.iter().filter(|d| d[0] < place as u64);
            (records, place - before.map(|d| d[1] as usize).sum::<usize>(), number)
        };
        let scan = moved(definition::scan(parse, old, &Original::hash));
        same("port", "scan of the new journal", &Port::scan_journal(new), &scan)?;
        let (nursery, ended) = definition::apply(parse, old, &self.sizes, &Original::hash);
        let (listing, after) = (nursery.listing(), moved(ended));
        let theirs = self.original.read_records(old, ended.0, false);
        same("original", "old journal", &theirs, &Ok((listing.clone(), ended.1)))?;
        let theirs = self.original.read_records(new, ended.0, false);
        same("original", "new journal", &theirs, &Ok((listing.clone(), after.1)))?;
        let wanted = if matches!(scan.2, 0 | 16) { Ok((after, bytes_of(&listing))) } else { Err(21) };
        same("port", "new journal", &self.port.read_journal(new, &self.sizes, false), &wanted)
    }

    /// A journal that is refused: the original takes the records before the damaged one, and refuses that, but for leftovers. All else is as before.
    fn journal_damaged(&mut self, journal: &[u8], scan: Ended) -> Compared {
        let (records, place, number) = scan;
        same("port", "damaged record", &Port::damaged_record(journal), &Some(scan))?;
        same("original", "records before a damaged one", &self.original.take_records(journal, records), &Ok(place))?;
        self.original_refuses(&journal[place..], number)?;
        let before = definition::apply(decode, &journal[..place], &self.sizes, &Original::hash).1;
        let how = match (records, before.2) {
            (0, _) => "damaged, the first record",
            (_, 0) => "damaged, behind records",
            _ => "damaged, behind a refused delta",
        };
        self.tally.journal(how, number);
        self.nursery_totals()
    }

    fn hash(&mut self, bytes: &[u8]) -> Compared {
        self.tally.bytes += bytes.len() as u64;
        let hash = Original::hash(bytes);
        same("port", "hash", &selvaigo::hash(bytes), &hash)?;
        // The original's library has keyed mode too. Any 32 bytes are a key.
        same("port", "keyed hash", &selvaigo::keyed_hash(&hash, bytes), &Original::keyed_hash(&hash, bytes))
    }
}

fn bytes_of(entries: &[Insert]) -> Vec<u8> {
    let mut out = Vec::new();
    definition::write_inserts(entries, false, &mut out);
    out
}
