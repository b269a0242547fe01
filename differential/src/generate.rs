//! Steps that mostly keep the callers' contract, at the limits more often than anywhere else.
use std::collections::BTreeSet;

use crate::compare::Sides;
use crate::definition::{Counters, DELAY, GOOD_SAVE, Nursery, SHRINK_BASE, SHRINK_MAX};
use crate::roaring::Form;
use crate::steps::{Delta, Hash, Insert, Room, Sizes, Step};
use crate::storage::shard_state::original::Original;

/// Numbers that look random, from a seed.
pub struct Random(u64);

impl Random {
    pub fn new(seed: u64) -> Self {
        Random(seed)
    }

    pub fn next(&mut self) -> u64 {
        self.0 = self.0.wrapping_add(0x9e37_79b9_7f4a_7c15);
        let x = (self.0 ^ self.0 >> 30).wrapping_mul(0xbf58_476d_1ce4_e5b9);
        let x = (x ^ x >> 27).wrapping_mul(0x94d0_49bb_1331_11eb);
        x ^ x >> 31
    }

    fn below(&mut self, n: u64) -> u64 {
        if n == 0 { 0 } else { self.next() % n }
    }

    fn size(&mut self, n: usize) -> usize {
        self.below(n as u64) as usize
    }

    /// True so many times in a hundred.
    fn chance(&mut self, percent: u64) -> bool {
        self.below(100) < percent
    }

    fn pick<T: Copy>(&mut self, from: &[T]) -> T {
        from[self.size(from.len())]
    }

    fn bytes(&mut self, n: usize) -> Vec<u8> {
        (0..n).map(|_| self.next() as u8).collect()
    }

    fn room(&mut self) -> Room {
        self.pick(&[Room::More, Room::More, Room::Exact, Room::Exact, Room::Less])
    }
}

/// One seed's run: how long it is, and what it draws from.
pub struct Run {
    r: Random,
    pub sizes: Sizes,
    pub steps: usize,
    dense: bool,
    bases: Vec<u64>,
    spread: u64,
    hashes: Vec<Hash>,
    round: u32,
    longest_cell: u64,
    weights: [u64; 20],
    /// Whether the live total stays near the number of counts.
    tight: bool,
    /// Whether journals get more records behind them, and records leftovers.
    more: bool,
    /// Rounds and hashes that were inserted: the checked original panics where such a pair waits twice.
    inserted: BTreeSet<(u32, Hash)>,
}

const HALF: u64 = 1 << 32;

fn a_next(r: &mut Random) -> u64 {
    let near = r.below(4);
    match r.below(12) {
        0 => 0,
        1 => 1,
        2..4 => 2 + r.below(70),
        4 => 65_536 - 2 + near,
        5 => HALF - 2 + near,
        6 => 3 * HALF + r.below(100_000),
        7 => 1 << 63,
        8 => u64::MAX - near,
        9 => u64::MAX - r.below(300),
        10 => r.next(),
        _ => r.below(1 << 20),
    }
}

fn a_hash(r: &mut Random, others: &[Hash]) -> Hash {
    let mut hash: Hash = r.bytes(32).try_into().unwrap();
    match (r.below(8), others.last()) {
        (0, _) => hash = [r.pick(&[0, 0xff]); 32],
        // The same first eight bytes: one place in the original's map.
        (1, Some(other)) => hash[..8].copy_from_slice(&other[..8]),
        (2, Some(other)) => {
            hash = *other;
            hash[31] ^= 1;
        }
        _ => {}
    }
    hash
}

/// Sizes of tables: often just a few rows, and words that belong to none.
fn a_room(r: &mut Random, plenty: usize) -> usize {
    let few = [0, 1, 2, 3, 5, 9, 20];
    if r.chance(45) { r.pick(&few) } else { plenty }
}

fn a_length(r: &mut Random) -> usize {
    match r.below(100) {
        0..80 => 1 + r.size(40),
        80..98 => 50 + r.size(600),
        _ => 2_000 + r.size(8_000),
    }
}

impl Run {
    pub fn new(seed: u64) -> Self {
        let mut r = Random::new(seed);
        r.next();
        let dense = r.below(400) == 0;
        let next = if dense { (1 + r.below(3)) * HALF + 200_000 } else { a_next(&mut r) };
        let (counts, rows) = (if dense { 24_000 } else { a_room(&mut r, 600) }, a_room(&mut r, 120));
        let long_cells = r.chance(2);
        let cells = if long_cells { 400_000 } else { r.pick(&[0, 1, 50, 8_000, 8_000, 8_000]) };
        let sizes = Sizes {
            next,
            counts: 2 * counts + r.size(2),
            entries: 8 * rows + r.size(8),
            waiting: 5 * (rows + r.size(2)) + r.size(5),
            cells,
            stripes: r.pick(&[1, 1, 2, 7]),
            held: r.chance(50),
        };
        let marks = [0, 65_536 - 3, HALF - 3, 2 * HALF - 3, next.saturating_sub(5), next / 2 & !0xffff, r.below(next)];
        let bases = (0..1 + r.size(4)).map(|_| r.pick(&marks).min(next)).collect();
        let mut hashes: Vec<Hash> = Vec::new();
        for _ in 0..r.pick(&[2, 6, 30, 200]) {
            let hash = a_hash(&mut r, &hashes);
            hashes.push(hash);
        }
        let round = r.pick(&[0, 0, 1, 90, 99, 5_000, u32::MAX - 120, u32::MAX - 3]);
        let steps = if dense { 20 + r.size(40) } else { a_length(&mut r) };
        let longest_cell = if long_cells { 65_537 } else { 40 };
        let (spread, tight) = (r.pick(&[2, 8, 64, 700]), r.chance(50));
        let mut weights = weights(&mut r);
        if dense {
            weights[10] *= 10;
        }
        let inserted = BTreeSet::new();
        Run { sizes, steps, dense, bases, spread, hashes, round, longest_cell, weights, tight, more: true, inserted, r }
    }

    /// A run for the list that is kept: one small box.
    pub fn sample(seed: u64, sizes: Sizes) -> Self {
        let mut run = Run::new(seed);
        let mut hashes: Vec<Hash> = Vec::new();
        for _ in 0..12 {
            let hash = a_hash(&mut run.r, &hashes);
            hashes.push(hash);
        }
        let bases = vec![0, 65_533, HALF - 3];
        let weights = [0, 6, 20, 12, 0, 3, 2, 2, 3, 0, 24, 0, 20, 12, 10, 3, 4, 6, 3, 3];
        Run { sizes, dense: false, bases, spread: 8, hashes, round: 0, longest_cell: 20, weights, more: false, ..run }
    }

    pub fn step(&mut self, sides: &Sides) -> Step {
        if self.dense && self.r.chance(60) {
            return self.dense_step(sides);
        }
        let mut at = self.r.below(self.weights.iter().sum());
        let mut kind = 0;
        while at >= self.weights[kind] {
            at -= self.weights[kind];
            kind += 1;
        }
        match kind {
            0 => Step::New(a_next(&mut self.r)),
            1 => Step::Allocate,
            2 => Step::Batch(self.batch(&sides.counters)),
            3 => Step::Get(self.an_index(&sides.counters, 5)),
            4 => self.figures(&sides.counters),
            5 => Step::Shrink(self.saved()),
            6 => self.should_shrink(),
            7 => {
                let half = SHRINK_MAX / 2;
                Step::Adjust([self.r.pick(&[0, 1, SHRINK_BASE, half, half + 1, SHRINK_MAX, u64::MAX]), self.saved()])
            }
            8 => Step::Snapshot(self.r.room()),
            9 => Step::ReadBack,
            10 => Step::Read(self.snapshot(&sides.counters)),
            11 => Step::Empty,
            12 => Step::Delta(self.delta(&sides.nursery)),
            13 => self.drain(&sides.nursery),
            14 => Step::Lookup(self.r.pick(&self.hashes)),
            15 => Step::Listing(self.r.room()),
            16 => Step::Encode(self.r.next() >> self.r.below(64), self.delta(&Nursery::default()), self.r.room()),
            17 => Step::Decode(self.record()),
            18 => self.journal(sides.journal.len()),
            _ => Step::Hash(self.bytes_to_hash()),
        }
    }

    /// An index that is mostly allocated and often has a count; so many times in a hundred it may be any.
    fn an_index(&mut self, c: &Counters, any: u64) -> u64 {
        let r = &mut self.r;
        if r.chance(any) || c.next == 0 {
            return match r.below(3) {
                0 => c.next.saturating_add(r.below(3)),
                1 => r.next(),
                _ => u64::MAX,
            };
        }
        let idx = r.pick(&self.bases).saturating_add(r.below(self.spread)).min(c.next - 1);
        let stored = c.counts.range(idx..).next().or(c.counts.iter().next());
        if r.chance(40) { stored.map_or(idx, |(i, _)| *i).min(c.next - 1) } else { idx }
    }

    fn a_count(&mut self) -> u64 {
        let r = &mut self.r;
        match r.below(10) {
            0..2 => 0,
            2..4 => 1,
            4 => r.pick(&[2, 3, 255, 256, 257, 258]),
            5 => r.pick(&[256, 257, 1 << 32, u64::MAX, u64::MAX - 1]),
            6 => 257 + r.next() / 2,
            7 => 1 + (1 << r.below(8)),
            _ => 2 + r.below(255),
        }
    }

    fn batch(&mut self, c: &Counters) -> Vec<[u64; 3]> {
        let n = match self.r.below(100) {
            0..3 => 0,
            3..45 => 1,
            45..65 => 2,
            65..85 => 3 + self.r.size(6),
            85..98 => 8 + self.r.size(30),
            _ => 30 + self.r.size(300),
        };
        let full = c.counts.len() >= self.sizes.counts / 2;
        let spare = c.live.saturating_sub(c.counts.len() as u64);
        let (mut batch, mut named, mut live) = (Vec::new(), BTreeSet::new(), c.live);
        for _ in 0..n {
            let idx = self.an_index(c, 0);
            if idx >= c.next || !named.insert(idx) {
                continue;
            }
            // A cell that was born before, or one that is born here.
            let born = self.r.below(if self.tight { spare.min(20) + 2 } else { 2 }).min(1);
            let old = c.counts.get(&idx).copied().unwrap_or(born);
            let mut new = if full && self.r.chance(60) { self.r.below(2) } else { self.a_count() };
            if new == 0 && old != 0 && live == 0 {
                new = 1;
            }
            live = live.saturating_add(u64::from(old == 0 && new != 0)) - u64::from(old != 0 && new == 0);
            batch.push([idx, old, new]);
        }
        if self.r.chance(85) {
            bear(c, &mut batch);
        }
        if self.r.chance(30) {
            batch.sort_unstable();
        }
        if self.r.chance(12) {
            self.beside(c, &mut batch);
        }
        batch
    }

    /// Something that is dropped, or that the contract forbids.
    fn beside(&mut self, c: &Counters, batch: &mut Vec<[u64; 3]>) {
        let (idx, count) = (self.an_index(c, 30), self.a_count());
        let extra = match self.r.below(6) {
            0..2 => [idx, count, count],
            2 => [c.next.saturating_add(self.r.below(2)), 0, count],
            3 => [idx, count, self.a_count()],
            4 => batch.first().map_or([idx, 1, 0], |t| [t[0], t[1], t[2] ^ 1]),
            _ => [idx, 1, 0],
        };
        batch.insert(self.r.size(batch.len() + 1), extra);
    }

    /// Long batches of neighbours: containers that grow past 4,096 members and shrink again.
    fn dense_step(&mut self, sides: &Sides) -> Step {
        let c = &sides.counters;
        if self.r.chance(25) {
            return self.r.pick(&[Step::Snapshot(Room::Exact), Step::ReadBack, Step::Shrink(0)].each_ref()).clone();
        }
        let start = self.r.pick(&[0, 60_000, 65_536, HALF - 2_000]) + self.r.below(3);
        let (keep, new) = (self.r.pick(&[1, 1, 1, 3]), self.a_count());
        // The port reads large counts slowly where they don't ascend.
        let n = if new > 256 { 300 } else { self.r.pick(&[4_095, 4_096, 4_097, 5_000, 300]) };
        let transition = |idx: u64| {
            let old = c.counts.get(&idx).copied().unwrap_or(0);
            [idx, old, if new == 0 && old == 0 { 1 } else { new }]
        };
        let mut batch: Vec<[u64; 3]> = (start..start + n).filter(|i| i % keep == 0 && *i < c.next).map(transition).collect();
        // A death needs a life.
        if new == 0 && c.live < batch.len() as u64 {
            batch.iter_mut().for_each(|t| t[2] = 1);
        }
        if self.r.chance(50) {
            batch.reverse();
        }
        Step::Batch(batch)
    }

    fn saved(&mut self) -> u64 {
        self.r.pick(&[0, 1, GOOD_SAVE - 1, GOOD_SAVE, GOOD_SAVE + 1, u64::MAX])
    }

    fn figures(&mut self, c: &Counters) -> Step {
        let third = c.counts.len() as u64 / 3;
        let (base, max) = (SHRINK_BASE, SHRINK_MAX);
        let marks = [0, 1, third, third + 1, 65_535, 65_536, base - 1, base, 2 * base, max, 1 << 40];
        let mut all = [0; 10];
        all.iter_mut().for_each(|f| *f = self.r.pick(&marks));
        if self.r.chance(60) {
            all[9] = self.r.pick(&[0, 1, third, base, 2 * base, max / 2, max]);
        }
        Step::Figures(all)
    }

    fn should_shrink(&mut self) -> Step {
        let r = &mut self.r;
        let removed = r.pick(&[0, 1, 65_535, 65_536, 131_072, u64::MAX / 3, u64::MAX / 3 + 1, u64::MAX]);
        let removed = if r.chance(30) { r.next() >> r.below(64) } else { removed };
        let alive = removed.saturating_mul(3).saturating_add(r.below(3)).saturating_sub(1);
        let alive = if r.chance(20) { r.pick(&[0, 1, u64::MAX]) } else { alive };
        let min = removed.saturating_add(r.below(3)).saturating_sub(1);
        Step::ShouldShrink([alive, removed, r.pick(&[min, min, 65_536, 0, u64::MAX])])
    }

    /// A snapshot in one of the forms that are read, or a damaged one.
    fn snapshot(&mut self, now: &Counters) -> Vec<u8> {
        let mut c = if self.r.chance(40) { now.clone() } else { self.some_counters() };
        let stored = c.counts.len() as u64;
        match self.r.below(100) {
            0..5 => c.live = u64::MAX - self.r.below(3),
            5..13 => c.live = self.r.below(stored),
            13..20 => c.live = stored.saturating_sub(self.r.below(2)),
            _ => {}
        }
        let mut large: Vec<[u64; 2]> = c.counts.iter().filter(|(_, n)| **n > 256).map(|(i, n)| [*i, *n]).collect();
        if self.r.chance(30) {
            large.reverse();
        }
        if let (true, Some(last)) = (self.r.chance(20), large.last().copied()) {
            large.insert(0, [last[0], 257 + self.r.below(3)]);
        }
        let forms = std::array::from_fn(|_| match self.r.below(8) {
            0..5 => Form::Plain,
            5..7 => Form::Runs(self.r.next() >> self.r.below(64)),
            _ => Form::EmptyBucket(self.r.pick(&[0, 1, 2, u32::MAX])),
        });
        let mut bytes = c.serialize_as(&forms, &large);
        if self.r.chance(60) {
            self.damage(&mut bytes);
        }
        bytes
    }

    /// Counters with a few counts, neighbours among them.
    fn some_counters(&mut self) -> Counters {
        let mut c = Counters::new(a_next(&mut self.r).max(1));
        let start = self.r.pick(&[0, 65_530, HALF - 5, c.next.saturating_sub(9), c.next / 2]);
        let mut batch = Vec::new();
        if self.r.below(if self.dense { 4 } else { 60 }) == 0 && c.next > 5_000 {
            // A container of bits.
            let n = self.r.pick(&[4_096, 4_097, 4_098]);
            batch.extend((0..n).map(|i| [i, 0, 2]));
        }
        for i in 0..self.r.below(14) {
            let idx = if self.r.chance(70) { start.saturating_add(i) } else { self.r.below(c.next) };
            let idx = idx + self.r.pick(&[0, 0, 65_536, HALF]) * self.r.below(2) % (u64::MAX - idx).max(1);
            batch.push([idx.min(c.next - 1), 0, self.a_count().max(2)]);
        }
        batch.sort_unstable();
        batch.dedup_by_key(|t| t[0]);
        c.apply_batch(&batch, usize::MAX).expect("births at allocated indices");
        c
    }

    fn damage(&mut self, bytes: &mut Vec<u8>) {
        let r = &mut self.r;
        for _ in 0..r.pick(&[1, 1, 1, 2, 5]) {
            let at = r.size(bytes.len().max(1));
            match r.below(9) {
                0..3 if !bytes.is_empty() => bytes[at] ^= 1 << r.below(8),
                3 if !bytes.is_empty() => bytes[at] = r.pick(&[0, 1, 2, 255, 0x3a, 0x3b]),
                4 => bytes.truncate(at),
                5 => bytes.insert(at, r.next() as u8),
                6 if !bytes.is_empty() => _ = bytes.remove(at),
                7 => {
                    let n = r.pick(&[1, 2, 4, 8, 16]);
                    let more = r.bytes(n);
                    bytes.splice(at..at, more);
                }
                _ => {
                    let n = r.pick(&[1, 8, 16, 17]);
                    let more = r.bytes(n);
                    bytes.extend(more);
                }
            }
        }
    }

    fn a_cell(&mut self) -> Vec<u8> {
        let n = match self.r.below(20) {
            0..4 => 0,
            4..19 => self.r.below(40),
            _ => self.longest_cell - self.r.below(3),
        };
        self.r.bytes(n as usize)
    }

    fn a_round(&mut self) -> u32 {
        if self.r.chance(6) {
            self.round = self.round.saturating_add(self.r.pick(&[1, 1, 50, 101]));
        }
        match self.r.below(20) {
            0 => self.r.next() as u32,
            1 => u32::MAX,
            2 => 0,
            _ => self.round.saturating_add(self.r.below(3) as u32),
        }
    }

    fn delta(&mut self, n: &Nursery) -> Delta {
        let mut delta = Delta::default();
        let most = self.r.pick(&[0, 1, 1, 2, 4, 10]);
        for _ in 0..self.r.below(most + 1) {
            let hash = self.r.pick(&self.hashes);
            let twice = n.has(&hash) || delta.inserts.iter().any(|i| i.hash == hash);
            if twice && !self.r.chance(2) {
                continue;
            }
            let born_round = self.a_round();
            if cfg!(debug_assertions) && !self.inserted.insert((born_round, hash)) {
                continue;
            }
            let idx = self.r.next() >> self.r.below(64);
            let cell = self.a_cell();
            delta.inserts.push(Insert { hash, idx, born_round, cell });
        }
        for _ in 0..self.r.below(most + 1) {
            let own = delta.inserts.first().map(|i| i.hash);
            let there = n.nth(self.r.size(n.len().max(1)));
            let hash = self.r.pick(&self.hashes);
            delta.removes.push(match self.r.below(5) {
                0 => own.unwrap_or(hash),
                1..4 => there.unwrap_or(hash),
                _ => hash,
            });
        }
        delta
    }

    fn drain(&mut self, n: &Nursery) -> Step {
        let born = n.some_round(self.r.size(n.len().max(1))).unwrap_or(self.round);
        let round = match self.r.below(10) {
            0 => self.r.pick(&[0, DELAY - 2, DELAY - 1, DELAY, DELAY + 1, u32::MAX]),
            1 => self.r.next() as u32,
            2..5 => self.round.saturating_add(DELAY - 1 + self.r.below(4) as u32),
            _ => born.saturating_add(self.r.pick(&[DELAY - 1, DELAY, DELAY, DELAY + 1])),
        };
        Step::Drain(round, self.r.room())
    }

    fn whole_record(&mut self) -> Vec<u8> {
        let id = self.r.next();
        let mut delta = self.delta(&Nursery::default());
        delta.inserts.iter_mut().for_each(|i| i.cell.truncate(300));
        Original::encode_record(id, &delta).0
    }

    /// The bytes of a record, whole, with leftovers, with more behind it, or damaged; half of the damaged ones with the right hash.
    fn record(&mut self) -> Vec<u8> {
        let mut bytes = self.whole_record();
        if self.more && self.r.chance(10) {
            self.leave_over(&mut bytes);
        }
        match self.r.below(10) {
            0..2 => {}
            2 => self.damage_end(&mut bytes),
            3 => self.restate(&mut bytes),
            4 => bytes.truncate(self.r.size(60)),
            5..7 => {
                let (front, rest) = bytes.split_at(32);
                let (front, mut rest) = (front.to_vec(), rest.to_vec());
                self.damage(&mut rest);
                bytes = [front, rest].concat();
                rehash(&mut bytes);
            }
            7 => self.recount(&mut bytes),
            _ => self.damage(&mut bytes),
        }
        bytes
    }

    /// Records behind a journal, whose hashes may be in the nursery there; half of them are whole. Sometimes they are from the time of leftovers.
    fn records(&mut self) -> Vec<u8> {
        let (mut all, leftovers) = (Vec::new(), if self.r.chance(50) { 50 } else { 0 });
        for _ in 0..1 + self.r.size(4) {
            let mut bytes = self.whole_record();
            if self.r.chance(leftovers) {
                self.leave_over(&mut bytes);
            }
            match self.r.below(8) {
                0 => self.restate(&mut bytes),
                1 => self.recount(&mut bytes),
                2 => bytes.truncate(self.r.size(bytes.len())),
                3 => self.damage(&mut bytes),
                _ => {}
            }
            all.extend(bytes);
        }
        all
    }

    fn damage_end(&mut self, bytes: &mut Vec<u8>) {
        let n = 1 + self.r.size(90);
        let more = self.r.bytes(n);
        bytes.extend(more);
    }

    /// Bytes after the last item, within the payload: any, or a record.
    fn leave_over(&mut self, bytes: &mut Vec<u8>) {
        let n = self.r.pick(&[1, 1, 2, 8, 16, 31, 32, 46, 90]);
        let more = if self.r.chance(20) { self.whole_record() } else { self.r.bytes(n) };
        bytes.extend(more);
        let len = bytes.len() as u64 - 40;
        bytes[32..40].copy_from_slice(&len.to_le_bytes());
        rehash(bytes);
    }

    /// Another length than the true one.
    fn restate(&mut self, bytes: &mut Vec<u8>) {
        let len = bytes.len() as u64 - 40;
        let half = 1 << 63;
        let marks = [0, 1, 15, 16, 17, len - 1, len + 1, u64::MAX, u64::MAX - 7, u64::MAX - 8, half - 8, half - 9, 1 << 40];
        let stated = self.r.pick(&marks);
        bytes[32..40].copy_from_slice(&stated.to_le_bytes());
        rehash(bytes);
    }

    /// Another number of inserts or removes than the true one.
    fn recount(&mut self, bytes: &mut [u8]) {
        let at = self.r.pick(&[48, 49, 51, 52, 55]);
        bytes[at] = self.r.pick(&[0, 1, 2, 3, 255]);
        rehash(bytes);
    }

    fn journal(&mut self, len: usize) -> Step {
        let cut = if self.r.chance(50) { len as u64 } else { self.r.next() };
        let flip = self.r.chance(25).then(|| self.r.next());
        let keep = self.r.chance(40);
        let more = if self.more && self.r.chance(40) { self.records() } else { Vec::new() };
        Step::Journal { cut, more, flip, keep }
    }

    fn bytes_to_hash(&mut self) -> Vec<u8> {
        let n = match self.r.below(20) {
            0 => self.r.size(40_000),
            1..8 => (self.r.pick(&[64, 1_024, 2_048, 3_072, 4_096, 8_192]) + self.r.size(3)).saturating_sub(1),
            _ => self.r.size(300),
        };
        self.r.bytes(n)
    }
}

/// Births instead of cells that were born before, and lives instead of their deaths, until there are as many cells as counts.
fn bear(c: &Counters, batch: &mut [[u64; 3]]) {
    let count = |which: fn(&[u64; 3]) -> bool| batch.iter().filter(|t| t[1] != t[2] && which(t)).count() as u64;
    let cells = c.live.saturating_add(count(|t| t[1] == 0)) - count(|t| t[2] == 0);
    let counts = c.counts.len() as u64 + count(|t| t[1] <= 1 && t[2] > 1) - count(|t| t[1] > 1 && t[2] <= 1);
    let unborn = batch.iter_mut().filter(|t| t[1] == 1 && t[2] != 1);
    for t in unborn.take(counts.saturating_sub(cells) as usize) {
        if t[2] == 0 { t[2] = 1 } else { t[1] = 0 }
    }
}

fn rehash(bytes: &mut [u8]) {
    let stated = crate::definition::stated(bytes).and_then(|n| usize::try_from(n).ok());
    let end = stated.and_then(|n| n.checked_add(40)).filter(|end| *end <= bytes.len());
    if let Some(end) = end {
        let hash = Original::hash(&bytes[32..end]);
        bytes[..32].copy_from_slice(&hash);
    }
}

/// What a run does often: everything, the counters, or the nursery.
fn weights(r: &mut Random) -> [u64; 20] {
    let mut all = [2, 60, 250, 120, 10, 20, 12, 8, 30, 12, 35, 2, 160, 60, 90, 20, 12, 30, 8, 16];
    let (counters, nursery) = r.pick(&[(1, 1), (1, 1), (5, 1), (1, 5)]);
    all[..11].iter_mut().for_each(|w| *w *= counters);
    all[11..].iter_mut().for_each(|w| *w *= nursery);
    if r.chance(10) {
        all[1] *= 20;
    }
    all
}
