//! Document 01 in plain Rust, with P1, P4 and P10 of document 02, and with P5's settings at document 01's numbers: what each call has to answer. The generator
//! takes from it what keeps the callers' contract, and the comparison what the port has to say where the original panics or takes what it shouldn't.
use std::collections::{BTreeMap, BTreeSet};

use crate::roaring::{self, Broken, Bytes, Form};
use crate::steps::{Delta, Hash, Insert, Sizes};

/// The number of a refusal.
pub type Refused<T> = Result<T, u8>;

#[derive(Clone, Debug)]
pub struct Counters {
    pub next: u64,
    pub live: u64,
    pub counts: BTreeMap<u64, u64>,
    /// Alive removals, the removals of the eight sets, the alive threshold.
    pub figures: [u64; 10],
    members: [u64; 8],
}

/// The settings of every box, port's and definition's: those that the original has fixed, as it has no others.
pub const DELAY: u32 = 100;
pub const SHRINK_BASE: u64 = 131_072;
pub const SHRINK_MAX: u64 = 2_097_152;
pub const GOOD_SAVE: u64 = 1_048_576;

/// Count - 1 where the count is a small one.
fn code(count: u64) -> u64 {
    if (2..=256).contains(&count) { count - 1 } else { 0 }
}

pub fn should_shrink(alive: u64, removed: u64, min: u64) -> bool {
    removed != 0 && (alive == 0 || removed >= min && 3 * u128::from(removed) >= u128::from(alive))
}

pub fn adjust(min: u64, saved: u64) -> u64 {
    if saved >= GOOD_SAVE { SHRINK_BASE } else { (2 * u128::from(min)).min(SHRINK_MAX.into()) as u64 }
}

impl Counters {
    pub fn new(next: u64) -> Self {
        let mut figures = [0; 10];
        figures[9] = SHRINK_BASE;
        Counters { next, live: 0, counts: BTreeMap::new(), figures, members: [0; 8] }
    }

    pub fn totals(&self) -> [u64; 13] {
        let mut all = [0; 13];
        all[..3].copy_from_slice(&[self.next, self.live, self.counts.len() as u64]);
        all[3..].copy_from_slice(&self.figures);
        all
    }

    /// The port's record: totals and settings.
    pub fn record(&self) -> [u64; 16] {
        let mut all = [0; 16];
        all[..13].copy_from_slice(&self.totals());
        all[13..].copy_from_slice(&[SHRINK_BASE, SHRINK_MAX, GOOD_SAVE]);
        all
    }

    pub fn alloc_idx(&mut self) -> Refused<u64> {
        let idx = self.next;
        self.next = idx.checked_add(1).ok_or(1u8)?;
        Ok(idx)
    }

    pub fn get(&self, idx: u64) -> Refused<u64> {
        if idx >= self.next {
            return Err(2);
        }
        Ok(self.counts.get(&idx).copied().unwrap_or(1))
    }

    /// The live total and the number of stored counts after a batch, by document 01 alone.
    fn judge(&self, kept: &[[u64; 3]], room: usize) -> Refused<(u64, u64)> {
        if kept.iter().any(|t| t[0] >= self.next) {
            return Err(2);
        }
        let mut named: Vec<u64> = kept.iter().map(|t| t[0]).collect();
        named.sort_unstable();
        if named.windows(2).any(|p| p[0] == p[1]) {
            return Err(3);
        }
        if kept.iter().any(|t| self.counts.get(&t[0]).map_or(t[1] > 1, |c| *c != t[1])) {
            return Err(5);
        }
        let births = kept.iter().filter(|t| t[1] == 0).count() as u64;
        let deaths = kept.iter().filter(|t| t[2] == 0).count() as u64;
        let live = self.live.checked_add(births).and_then(|n| n.checked_sub(deaths)).ok_or(4u8)?;
        let fallen = kept.iter().filter(|t| t[1] > 1 && t[2] <= 1).count();
        let risen = kept.iter().filter(|t| t[1] <= 1 && t[2] > 1).count();
        let stored = self.counts.len() + risen - fallen;
        if stored > room {
            return Err(6);
        }
        Ok((live, stored as u64))
    }

    pub fn apply_batch(&mut self, batch: &[[u64; 3]], room: usize) -> Refused<()> {
        let kept = kept(batch);
        let (live, stored) = self.judge(&kept, room)?;
        if live < stored {
            return Err(25);
        }
        self.change(&kept, live);
        Ok(())
    }

    /// What a batch that is refused with 25 leaves by document 01 alone. So the original takes it.
    pub fn with_few_cells(&self, batch: &[[u64; 3]]) -> Self {
        let (mut c, kept) = (self.clone(), kept(batch));
        let (live, _) = c.judge(&kept, usize::MAX).expect("no other refusal");
        c.change(&kept, live);
        c
    }

    fn change(&mut self, kept: &[[u64; 3]], live: u64) {
        self.live = live;
        for &[idx, old, new] in kept {
            self.set(idx, new);
            if old > 1 && new <= 1 {
                self.figures[0] = self.figures[0].saturating_add(1);
            }
            let cleared = code(old) & !code(new);
            for bit in 0..8 {
                self.figures[bit + 1] = self.figures[bit + 1].saturating_add(cleared >> bit & 1);
            }
        }
    }

    fn set(&mut self, idx: u64, count: u64) {
        let old = if count > 1 { self.counts.insert(idx, count) } else { self.counts.remove(&idx) };
        for bit in 0..8 {
            let (before, after) = (code(old.unwrap_or(0)) >> bit & 1, code(count) >> bit & 1);
            self.members[bit] = self.members[bit] + after - before;
        }
    }

    /// Which are to be shrunk: the set of all stored indices, then the eight sets.
    pub fn shrink_if_needed(&mut self, saved: u64) -> [u64; 9] {
        let mut yes = [0; 9];
        for i in 0..9 {
            let (alive, min) = if i == 0 { (self.counts.len() as u64, self.figures[9]) } else { (self.members[i - 1], 65_536) };
            if should_shrink(alive, self.figures[i], min) {
                yes[i] = 1;
                self.figures[i] = 0;
            }
        }
        if yes[0] == 1 {
            self.figures[9] = adjust(self.figures[9], saved);
        }
        yes
    }

    fn set_members(&self, bit: usize) -> Vec<u64> {
        self.counts.iter().filter(|(_, c)| code(**c) >> bit & 1 == 1).map(|(i, _)| *i).collect()
    }

    pub fn serialize(&self) -> Vec<u8> {
        let large: Vec<[u64; 2]> = self.counts.iter().filter(|(_, c)| **c > 256).map(|(i, c)| [*i, *c]).collect();
        self.serialize_as(&[Form::Plain; 8], &large)
    }

    /// With each set in a form of its own, and with these large entries.
    pub fn serialize_as(&self, forms: &[Form; 8], large: &[[u64; 2]]) -> Vec<u8> {
        let mut out = vec![1];
        out.extend(self.next.to_le_bytes());
        out.extend(self.live.to_le_bytes());
        for (bit, form) in forms.iter().enumerate() {
            let payload = roaring::write(&self.set_members(bit), *form);
            out.extend((payload.len() as u64).to_le_bytes());
            out.extend(payload);
        }
        out.extend(large.iter().flatten().flat_map(|n| n.to_le_bytes()));
        out
    }

    /// The counters of a snapshot; or the refusal's number, and whether the original refuses it too.
    pub fn read(snapshot: &[u8], room: usize) -> Result<Self, (u8, Broken)> {
        let c = Self::parse(snapshot, room)?;
        if c.live < c.counts.len() as u64 {
            return Err((25, Broken::Tolerated("S6")));
        }
        Ok(c)
    }

    /// The same for a snapshot with fewer cells than counts, whose live total is raised; and the one that it has.
    pub fn load(snapshot: &[u8], room: usize) -> Result<(Self, u64), (u8, Broken)> {
        let mut c = Self::parse(snapshot, room)?;
        let old_total = c.live;
        c.live = c.live.max(c.counts.len() as u64);
        Ok((c, old_total))
    }

    /// By document 01 alone: the live total may be any. So the original reads.
    pub fn parse(snapshot: &[u8], room: usize) -> Result<Self, (u8, Broken)> {
        let torn = (8, Broken::Refused);
        let mut s = Bytes(snapshot);
        match s.take(1) {
            None => return Err(torn),
            Some([1]) => {}
            Some(_) => return Err((7, Broken::Refused)),
        }
        let mut c = Counters::new(s.u64().ok_or(torn)?);
        c.live = s.u64().ok_or(torn)?;
        let mut codes: BTreeMap<u64, u64> = BTreeMap::new();
        for bit in 0..8 {
            let len = s.u64().ok_or(torn)?;
            let payload = usize::try_from(len).ok().and_then(|n| s.take(n)).ok_or(torn)?;
            for m in roaring::read(payload).map_err(|rule| (9, rule))? {
                *codes.entry(m).or_default() |= 1 << bit;
            }
        }
        let large = read_large(s.0).ok_or((10, Broken::Refused))?;
        let clash = (11, Broken::Tolerated("S3 to S5"));
        if large.keys().any(|i| codes.contains_key(i)) || large.keys().chain(codes.keys()).any(|i| *i >= c.next) {
            return Err(clash);
        }
        if large.len() + codes.len() > room {
            return Err((6, Broken::Tolerated("L2")));
        }
        for (idx, count) in codes.iter().map(|(i, code)| (*i, code + 1)).chain(large) {
            c.set(idx, count);
        }
        Ok(c)
    }
}

/// The transitions of a batch that change something.
pub fn kept(batch: &[[u64; 3]]) -> Vec<[u64; 3]> {
    batch.iter().filter(|t| t[1] != t[2]).copied().collect()
}

fn read_large(rest: &[u8]) -> Option<BTreeMap<u64, u64>> {
    if !rest.len().is_multiple_of(16) {
        return None;
    }
    let number = |b: &[u8]| u64::from_le_bytes(b.try_into().unwrap());
    let all: BTreeMap<u64, u64> = rest.chunks_exact(16).map(|e| (number(&e[..8]), number(&e[8..]))).collect();
    rest.chunks_exact(16).all(|e| number(&e[8..]) >= 257).then_some(all)
}

#[derive(Clone, Debug)]
struct Entry {
    idx: u64,
    born_round: u32,
    cell: Vec<u8>,
    /// Its place among all inserts, while it waits.
    arrival: Option<u64>,
}

#[derive(Clone, Debug, Default)]
pub struct Nursery {
    entries: BTreeMap<Hash, Entry>,
    waiting: BTreeMap<(u32, u64), Hash>,
    pub cell_bytes: usize,
    arrivals: u64,
    /// Rounds and hashes that the original still has in its lists though they wait no longer.
    stale: BTreeSet<(u32, Hash)>,
}

pub type Drained = Vec<(Hash, u64, Vec<u8>)>;

impl Nursery {
    pub fn len(&self) -> usize {
        self.entries.len()
    }

    pub fn waits(&self) -> usize {
        self.waiting.len()
    }

    /// The port's record: totals and the delay.
    pub fn record(&self) -> [u64; 4] {
        [self.len() as u64, self.waits() as u64, self.cell_bytes as u64, DELAY.into()]
    }

    pub fn has(&self, hash: &Hash) -> bool {
        self.entries.contains_key(hash)
    }

    pub fn nth(&self, n: usize) -> Option<Hash> {
        self.entries.keys().nth(n).copied()
    }

    fn judge(&self, delta: &Delta, sizes: &Sizes) -> Refused<()> {
        if delta.inserts.iter().any(|i| i.cell.len() > 65_535) {
            return Err(14);
        }
        let mut named = BTreeSet::new();
        if delta.inserts.iter().any(|i| self.has(&i.hash) || !named.insert(i.hash)) {
            return Err(12);
        }
        let bytes = self.cell_bytes + delta.inserts.iter().map(|i| i.cell.len()).sum::<usize>();
        let room = (sizes.entries / 8).min(sizes.waiting / 5);
        if self.len() + delta.inserts.len() > room || bytes > sizes.cells {
            return Err(13);
        }
        Ok(())
    }

    /// Whether the original will hand out one of these twice.
    pub fn put_back(&self, delta: &Delta) -> bool {
        delta.inserts.iter().any(|i| self.stale.contains(&(i.born_round, i.hash)))
    }

    pub fn apply_commit(&mut self, delta: &Delta, sizes: &Sizes) -> Refused<()> {
        self.judge(delta, sizes)?;
        for i in &delta.inserts {
            self.arrivals += 1;
            self.waiting.insert((i.born_round, self.arrivals), i.hash);
            self.cell_bytes += i.cell.len();
            let e = Entry { idx: i.idx, born_round: i.born_round, cell: i.cell.clone(), arrival: Some(self.arrivals) };
            self.entries.insert(i.hash, e);
        }
        for hash in &delta.removes {
            let Some(e) = self.entries.remove(hash) else { continue };
            self.cell_bytes -= e.cell.len();
            if let Some(arrival) = e.arrival {
                self.waiting.remove(&(e.born_round, arrival));
                self.stale.insert((e.born_round, *hash));
            }
        }
        Ok(())
    }

    /// What is due, and how many bytes it takes in the port's output.
    pub fn due(&self, round: u32) -> (Drained, usize) {
        let Some(last) = round.checked_sub(DELAY) else { return (Vec::new(), 0) };
        let due = self.waiting.range(..=(last, u64::MAX)).map(|(_, hash)| {
            let e = &self.entries[hash];
            (*hash, e.idx, e.cell.clone())
        });
        let due: Drained = due.collect();
        let bytes = due.iter().map(|d| 42 + d.2.len()).sum();
        (due, bytes)
    }

    pub fn drain(&mut self, round: u32) {
        let Some(last) = round.checked_sub(DELAY) else { return };
        for hash in self.waiting.range(..=(last, u64::MAX)).map(|(_, hash)| hash) {
            self.entries.get_mut(hash).unwrap().arrival = None;
        }
        self.waiting.retain(|(born, _), _| *born > last);
        self.stale.retain(|(born, _)| *born > last);
    }

    pub fn lookup(&self, hash: &Hash) -> Option<(u64, &[u8])> {
        self.entries.get(hash).map(|e| (e.idx, &e.cell[..]))
    }

    pub fn listing(&self) -> Vec<Insert> {
        let insert =
            |(hash, e): (&Hash, &Entry)| Insert { hash: *hash, idx: e.idx, born_round: e.born_round, cell: e.cell.clone() };
        self.entries.iter().map(insert).collect()
    }

    /// A round around which something is born.
    pub fn some_round(&self, n: usize) -> Option<u32> {
        self.entries.values().nth(n).map(|e| e.born_round)
    }
}

pub fn write_inserts(inserts: &[Insert], wide: bool, out: &mut Vec<u8>) {
    for i in inserts {
        out.extend(i.hash);
        out.extend(i.idx.to_le_bytes());
        out.extend(i.born_round.to_le_bytes());
        let len = (i.cell.len() as u32).to_le_bytes();
        out.extend(&len[..if wide { 4 } else { 2 }]);
        out.extend(&i.cell);
    }
}

pub fn items(delta: &Delta, wide: bool) -> Vec<u8> {
    let mut out = Vec::new();
    write_inserts(&delta.inserts, wide, &mut out);
    out.extend(delta.removes.iter().flatten());
    out
}

/// What a record says.
pub struct Decoded {
    pub id: u64,
    pub hash: Hash,
    pub stats: [u64; 5],
    pub delta: Delta,
    pub payload: usize,
    /// Bytes of the payload after its last item.
    pub leftover: usize,
}

/// The stated length, where there are 40 bytes.
pub fn stated(bytes: &[u8]) -> Option<u64> {
    (bytes.len() >= 40).then(|| u64::from_le_bytes(bytes[32..40].try_into().unwrap()))
}

/// How a record is hashed.
type Hashes<'a> = &'a dyn Fn(&[u8]) -> Hash;

/// How a record is read: one of the two below.
pub type Rule = fn(&[u8], Hashes) -> Refused<Decoded>;

/// By document 01 alone: what a payload has after its last item is passed over. So the original reads.
pub fn parse(bytes: &[u8], hash: Hashes) -> Refused<Decoded> {
    let len = stated(bytes).ok_or(16u8)?;
    if len >= u64::MAX - 7 {
        return Err(17);
    }
    let Some(payload) = usize::try_from(len).ok().and_then(|n| bytes[40..].get(..n)) else { return Err(16) };
    if hash(&bytes[32..40 + payload.len()]) != bytes[..32] {
        return Err(18);
    }
    let mut s = Bytes(payload);
    let (id, inserts, removes) = read_counts(&mut s).ok_or(19u8)?;
    let delta = read_items(&mut s, inserts, removes).ok_or(19u8)?;
    let cells: usize = delta.inserts.iter().map(|i| i.cell.len()).sum();
    let stats = [len, 16 + 46 * inserts + 32 * removes, cells as u64, inserts, removes];
    Ok(Decoded { id, hash: bytes[..32].try_into().unwrap(), stats, delta, payload: payload.len(), leftover: s.0.len() })
}

/// With P4 of document 02: such leftovers are refused.
pub fn decode(bytes: &[u8], hash: Hashes) -> Refused<Decoded> {
    parse(bytes, hash).and_then(|d| if d.leftover == 0 { Ok(d) } else { Err(22) })
}

/// The id and the two list lengths of a payload.
pub fn read_counts(s: &mut Bytes) -> Option<(u64, u64, u64)> {
    Some((s.u64()?, u64::from(s.u32()?), u64::from(s.u32()?)))
}

fn read_items(s: &mut Bytes, inserts: u64, removes: u64) -> Option<Delta> {
    let mut delta = Delta::default();
    for _ in 0..inserts {
        let hash = s.take(32)?.try_into().unwrap();
        let (idx, born_round, len) = (s.u64()?, s.u32()?, s.u16()?);
        delta.inserts.push(Insert { hash, idx, born_round, cell: s.take(usize::from(len))?.to_vec() });
    }
    for _ in 0..removes {
        delta.removes.push(s.take(32)?.try_into().unwrap());
    }
    Some(delta)
}

/// How records were gone through: how many, the place after the last of them, and the number that ended it.
pub type Ended = (usize, usize, u8);

/// Records one after another, each given to a step, up to the first that is refused or whose step is.
fn records(rule: Rule, journal: &[u8], hash: Hashes, mut step: impl FnMut(&Delta) -> Refused<()>) -> Ended {
    let (mut records, mut place) = (0, 0);
    while place < journal.len() {
        match rule(&journal[place..], hash).and_then(|d| step(&d.delta).map(|()| d.payload)) {
            Ok(payload) => place += 40 + payload,
            Err(number) => return (records, place, number),
        }
        records += 1;
    }
    (records, place, 0)
}

/// The first pass over a journal: records that are taken, whatever their deltas are.
pub fn scan(rule: Rule, journal: &[u8], hash: Hashes) -> Ended {
    records(rule, journal, hash, |_| Ok(()))
}

/// The second: their deltas, into an empty nursery.
pub fn apply(rule: Rule, journal: &[u8], sizes: &Sizes, hash: Hashes) -> (Nursery, Ended) {
    let mut nursery = Nursery::default();
    let ended = records(rule, journal, hash, |delta| nursery.apply_commit(delta, sizes));
    (nursery, ended)
}

/// A journal, read into an empty nursery. A record that is refused and not cut refuses the reading.
pub fn read_journal(rule: Rule, journal: &[u8], sizes: &Sizes, hash: Hashes) -> Refused<(Nursery, Ended)> {
    if !matches!(scan(rule, journal, hash).2, 0 | 16) {
        return Err(21);
    }
    Ok(apply(rule, journal, sizes, hash))
}

/// A journal without leftovers: its bytes, and the place and the number of those that were dropped. From the first record that document 01 refuses
/// on all is as it was.
pub fn convert(journal: &[u8], hash: Hashes) -> (Vec<u8>, Vec<[u64; 2]>) {
    let (mut new, mut dropped, mut place) = (Vec::new(), Vec::new(), 0);
    while let Ok(d) = parse(&journal[place..], hash) {
        let used = d.payload - d.leftover;
        let stated = [&(used as u64).to_le_bytes(), &journal[place + 40..][..used]].concat();
        new.extend(hash(&stated));
        new.extend(stated);
        if d.leftover > 0 {
            dropped.push([place + 40 + used, d.leftover].map(|n| n as u64));
        }
        place += 40 + d.payload;
    }
    new.extend(&journal[place..]);
    (new, dropped)
}
