//! Two batches in a row, made up at random on counters that go on from batch to batch: one that takes the other back, and two in either order.
use selvaigo::{CounterTransition, Counters, Idx, NextIdx, RefCount, Refusal, ShrinkSettings};

const NEXT: u64 = 24;
const ROOM: usize = 16;
const NEW: [u64; 10] = [0, 0, 1, 1, 2, 3, 255, 256, 257, 1_000];

/// The same numbers in every run.
struct Numbers(u64);

impl Numbers {
    fn below(&mut self, n: u64) -> u64 {
        self.0 = self.0.wrapping_mul(6_364_136_223_846_793_005).wrapping_add(1_442_695_040_888_963_407);
        (self.0 >> 33) % n
    }

    fn shuffle(&mut self, batch: &mut [CounterTransition]) {
        for i in (1..batch.len()).rev() {
            batch.swap(i, self.below(i as u64 + 1) as usize);
        }
    }

    /// Mostly one that is accepted: at each index the old count that is stored, 0 or 1 where none is. Some are dropped, some aren't true. The more
    /// cells to spare there are, the fewer are born, so that the live total stays near the number of counts.
    fn batch(&mut self, c: &Counters) -> Vec<CounterTransition> {
        let spare = c.live_cells() - c.stored() as u64;
        let transition = |i: u64, n: &mut Self| {
            let idx = Idx::new(i);
            let old_raw = match c.get(idx) {
                Ok(count) if count == RefCount::ONE => n.below(spare + 2).min(1),
                Ok(count) => count.get() + u64::from(n.below(64) == 0),
                Err(_) => 7,
            };
            let new_raw = if n.below(8) == 0 { old_raw } else { NEW[n.below(NEW.len() as u64) as usize] };
            CounterTransition { idx, old_raw, new_raw }
        };
        (0..=NEXT).filter_map(|i| (self.below(6) == 0).then(|| transition(i, self))).collect()
    }
}

fn fresh() -> Counters {
    Counters::new(NextIdx::new(NEXT), ROOM, ShrinkSettings::STANDARD).unwrap()
}

fn kept(batch: &[CounterTransition]) -> impl Iterator<Item = CounterTransition> + '_ {
    batch.iter().copied().filter(|t| t.old_raw != t.new_raw)
}

fn exchanged(t: CounterTransition) -> CounterTransition {
    CounterTransition { idx: t.idx, old_raw: t.new_raw, new_raw: t.old_raw }
}

fn after(c: &Counters, batch: &[CounterTransition]) -> Result<Counters, Refusal> {
    let mut c = c.clone();
    c.apply_batch(batch).map(|()| c)
}

#[test]
fn a_batch_is_taken_back() {
    let (mut c, mut n) = (fresh(), Numbers(7));
    let (mut taken, mut refused, mut few, mut full, mut grown) = (0, 0, 0, 0, 0);
    for _ in 0..4_000 {
        let batch = n.batch(&c);
        let between = match after(&c, &batch) {
            Ok(between) => between,
            Err(refusal) => {
                refused += 1;
                few += usize::from(refusal == Refusal::FewCells);
                continue;
            }
        };
        let mut inverse: Vec<_> = kept(&batch).map(exchanged).collect();
        inverse.push(CounterTransition { idx: Idx::new(n.below(99)), old_raw: 5, new_raw: 5 });
        n.shuffle(&mut inverse);
        let back = after(&between, &inverse).expect("the inverse of an accepted batch is accepted");
        assert_eq!(back.serialize(), c.serialize());
        assert_eq!(back.counts(), c.counts());
        assert_eq!((back.next_idx(), back.live_cells(), back.stored()), (c.next_idx(), c.live_cells(), c.stored()));
        let (old, new) = (c.maintenance(), back.maintenance());
        assert_eq!(new.min_alive_removed_before_shrink, old.min_alive_removed_before_shrink);
        taken += 1;
        full += usize::from(between.stored() == ROOM);
        grown += usize::from(old != new);
        c = between;
    }
    // what is compared did come about
    assert!(taken > 1_000 && refused > 100 && few > 100 && full > 100 && grown > 100, "{taken} {refused} {few} {full} {grown}");
}

#[test]
fn batches_in_either_order() {
    let (mut c, mut n) = (fresh(), Numbers(11));
    let (mut both, mut one, mut few, mut common) = (0, 0, 0, 0);
    for _ in 0..12_000 {
        let (a, b) = (n.batch(&c), n.batch(&c));
        let ab = after(&c, &a).and_then(|c| after(&c, &b));
        let ba = after(&c, &b).and_then(|c| after(&c, &a));
        if let (Ok(x), Ok(y)) = (&ab, &ba) {
            assert_eq!((x.state(), x.counts()), (y.state(), y.counts()));
            assert_eq!(x.serialize(), y.serialize());
            both += 1;
            common += usize::from(kept(&a).any(|t| kept(&b).any(|u| t.idx == u.idx)));
        }
        let fewer = |x: &Result<Counters, Refusal>| x.as_ref().is_err_and(|refusal| *refusal == Refusal::FewCells);
        one += usize::from(ab.is_ok() != ba.is_ok());
        few += usize::from(ab.is_ok() && fewer(&ba) || fewer(&ab) && ba.is_ok());
        c = ab.or(ba).unwrap_or(c);
    }
    assert!(both > 1_000 && one > 100 && few > 100 && common > 10, "{both} {one} {few} {common}");
}
