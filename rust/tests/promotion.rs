//! Each entry is handed out exactly once (document 02, P12): the worked lines, and boxes of calls made up at random that are read in again now and then.
use selvaigo::{
    CellNursery, HashBytes, Idx, Mode, NextIdx, NodeBox, NurseryDelta, NurseryEntryRecord, PromotedCell, Refusal, Room, Settings,
};

const LAST: u32 = u32::MAX;
const SETTINGS: Settings = Settings::STANDARD;

fn entry(tag: u8, born_round: u32, data: &[u8]) -> NurseryEntryRecord {
    NurseryEntryRecord { hash: HashBytes([tag; 32]), idx: Idx::new(7), born_round, data: data.to_vec() }
}

fn one(born_round: u32) -> NurseryEntryRecord {
    entry(1, born_round, &[8, 9])
}

fn puts(inserts: Vec<NurseryEntryRecord>) -> NurseryDelta {
    NurseryDelta { inserts, removes: vec![] }
}

fn removes(tag: u8) -> NurseryDelta {
    NurseryDelta { inserts: vec![], removes: vec![HashBytes([tag; 32])] }
}

/// A nursery with room for two entries and two cell bytes, after an insert.
fn holding(born_round: u32) -> CellNursery {
    let mut n = CellNursery::new(2, 2, SETTINGS.delay).unwrap();
    n.apply_commit(&puts(vec![one(born_round)])).unwrap();
    n
}

/// What a drain into so many bytes hands out.
fn drained(n: &mut CellNursery, round: u32, out: usize) -> Result<Vec<(HashBytes, Idx, Vec<u8>)>, Refusal> {
    let mut out = vec![0xff; out];
    let len = n.drain_promotable_into(round, &mut out)?;
    Ok(PromotedCell::all(&out[..len]).map(|cell| (cell.hash, cell.idx, cell.data.to_vec())).collect())
}

/// How many cells the drain at a round hands out, after drains at others.
fn after(born_round: u32, rounds: &[u32], round: u32) -> usize {
    let mut n = holding(born_round);
    for r in rounds {
        drained(&mut n, *r, 44).unwrap();
    }
    let handed = drained(&mut n, round, 44).unwrap();
    let e = one(born_round);
    assert!(handed.is_empty() || handed == [(e.hash, e.idx, e.data)]);
    handed.len()
}

#[test]
fn once_at_the_first_round_that_is_due() {
    assert_eq!((after(5, &[], 104), after(5, &[], 105)), (0, 1));
    assert_eq!((after(5, &[105], 105), after(5, &[105], 4_000), after(5, &[4_000], 105)), (0, 0, 0));
    assert_eq!((after(5, &[104], 105), after(5, &[99, 50], 200)), (1, 1));
    assert_eq!((after(LAST - 100, &[], LAST), after(LAST - 99, &[], LAST)), (1, 0));

    let mut n = holding(5);
    let mut out = [0xff; 50];
    assert_eq!(n.drain_promotable_into(105, &mut out), Ok(44));
    assert_eq!((&out[..32], &out[32..44], &out[44..]), (&[1; 32][..], &[7, 0, 0, 0, 0, 0, 0, 0, 2, 0, 8, 9][..], &[0xff; 6][..]));
}

#[test]
fn what_is_refused_counts_for_nothing() {
    let mut n = holding(5);
    assert_eq!(drained(&mut n, 105, 43), Err(Refusal::OutputFull));
    assert_eq!(n.apply_commit(&puts(vec![one(9)])), Err(Refusal::Present));
    assert_eq!(drained(&mut n, 105, 44).unwrap().len(), 1);
}

#[test]
fn what_is_removed_is_not_handed_out() {
    let mut n = holding(5);
    n.apply_commit(&removes(1)).unwrap();
    assert_eq!(drained(&mut n, 105, 44), Ok(vec![]));
    // nor what its own delta removes
    n.apply_commit(&NurseryDelta { inserts: vec![one(5)], removes: vec![HashBytes([1; 32])] }).unwrap();
    assert_eq!(drained(&mut n, 105, 44), Ok(vec![]));
    // another entry of the hash is handed out for itself
    let mut n = holding(5);
    assert_eq!(drained(&mut n, 105, 44).unwrap().len(), 1);
    n.apply_commit(&removes(1)).unwrap();
    n.apply_commit(&puts(vec![one(9)])).unwrap();
    assert_eq!([108, 109, 110].map(|round| drained(&mut n, round, 44).unwrap().len()), [0, 1, 0]);
}

/// The same numbers in every run.
struct Numbers(u64);

impl Numbers {
    fn below(&mut self, n: u64) -> u64 {
        self.0 = self.0.wrapping_mul(6_364_136_223_846_793_005).wrapping_add(1_442_695_040_888_963_407);
        (self.0 >> 33) % n
    }

    fn tag(&mut self) -> u8 {
        self.below(20) as u8
    }

    fn round(&mut self) -> u32 {
        if self.below(16) == 0 { LAST - self.below(120) as u32 } else { self.below(400) as u32 }
    }

    fn delta(&mut self) -> NurseryDelta {
        let cell = |n: &mut Self| vec![n.below(256) as u8; n.below(4) as usize];
        let inserts = (0..self.below(3)).map(|_| entry(self.tag(), self.round(), &cell(self))).collect();
        let removes = (0..self.below(4)).map(|_| HashBytes([self.tag(); 32])).collect();
        NurseryDelta { inserts, removes }
    }
}

/// A box and its journal; and its entries, each with whether a drain handed it out since the box was made or read in.
struct Followed {
    node: NodeBox,
    journal: Vec<u8>,
    live: Vec<(NurseryEntryRecord, bool)>,
}

const ROOM: Room = Room { counts: 0, entries: 8, cell_bytes: 16 };

impl Followed {
    fn commit(&mut self, id: u64, delta: NurseryDelta) -> Result<(), Refusal> {
        self.node.commit(id, &delta, &mut self.journal)?;
        self.live.extend(delta.inserts.into_iter().map(|e| (e, false)));
        self.live.retain(|(e, _)| !delta.removes.contains(&e.hash));
        Ok(())
    }

    /// An accepted drain hands out those that are due and weren't handed out, each once, and no other: how many. A refused one leaves all as it was.
    fn drain(&mut self, round: u32, out: usize) -> Result<usize, Refusal> {
        let before = self.node.nursery.clone().into_parts();
        let handed = drained(&mut self.node.nursery, round, out).inspect_err(|r| {
            assert_eq!((*r, self.node.nursery.clone().into_parts()), (Refusal::OutputFull, before));
        })?;
        let mut expected = 0;
        for (e, out) in &mut self.live {
            let due = u64::from(e.born_round) + SETTINGS.delay <= u64::from(round);
            let own: Vec<_> = handed.iter().filter(|cell| cell.0 == e.hash).cloned().collect();
            let once = if due && !*out { vec![(e.hash, e.idx, e.data.clone())] } else { vec![] };
            assert_eq!(own, once);
            *out |= due;
            expected += once.len();
        }
        assert_eq!(handed.len(), expected);
        Ok(expected)
    }

    /// A box that is read in has every entry wait.
    fn read_in(&mut self) {
        self.node =
            NodeBox::restore(&self.node.counters.serialize(), &self.journal, ROOM, SETTINGS, Mode::Unkeyed).unwrap().node_box;
        self.live.iter_mut().for_each(|(_, out)| *out = false);
    }
}

#[test]
fn over_calls_made_up_at_random() {
    let mut f =
        Followed { node: NodeBox::new(NextIdx::new(0), ROOM, SETTINGS, Mode::Unkeyed).unwrap(), journal: vec![], live: vec![] };
    let mut n = Numbers(3);
    let (mut handed, mut short, mut refused, mut read) = (0, 0, 0, 0);
    for id in 0..40_000 {
        match n.below(1_000) {
            0 => {
                f.read_in();
                read += 1;
            }
            1..500 => refused += usize::from(f.commit(id, n.delta()).is_err()),
            500..700 => short += usize::from(f.drain(n.round(), 41).is_err()),
            _ => handed += f.drain(n.round(), 42 * ROOM.entries + ROOM.cell_bytes).unwrap(),
        }
    }
    // what is compared did come about
    assert!(handed > 3_000 && short > 1_000 && refused > 1_000 && read > 10, "{handed} {short} {refused} {read}");
}
