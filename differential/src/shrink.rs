//! The smallest failing steps that leaving out and cutting short find.
use crate::steps::{Sizes, Step};

/// Steps that still fail; the test says of a list whether it does.
pub fn smallest(sizes: &Sizes, steps: Vec<Step>, fails: &dyn Fn(&Sizes, &[Step]) -> bool) -> Vec<Step> {
    let mut steps = steps;
    loop {
        let before = size(&steps);
        steps = fewer(steps, &|s| fails(sizes, s));
        for at in 0..steps.len() {
            shorter(&mut steps, at, &|s| fails(sizes, s));
        }
        if size(&steps) == before {
            return steps;
        }
    }
}

fn size(steps: &[Step]) -> usize {
    steps.iter().map(|s| s.to_string().len()).sum()
}

/// Leaves out parts of a list, large ones first, as long as it fails without them.
fn fewer<T: Clone>(list: Vec<T>, fails: &dyn Fn(&[T]) -> bool) -> Vec<T> {
    let mut list = list;
    let mut part = list.len().div_ceil(2);
    while part > 0 {
        let mut at = 0;
        while at < list.len() {
            let end = (at + part).min(list.len());
            let rest = [&list[..at], &list[end..]].concat();
            if fails(&rest) {
                list = rest;
            } else {
                at = end;
            }
        }
        part /= 2;
    }
    list
}

/// Cuts one step's list or bytes.
fn shorter(steps: &mut [Step], at: usize, fails: &dyn Fn(&[Step]) -> bool) {
    let with = |step: Step| {
        let mut all = steps.to_vec();
        all[at] = step;
        fails(&all)
    };
    let new = match steps[at].clone() {
        Step::Batch(batch) => Step::Batch(fewer(batch, &|b| with(Step::Batch(b.to_vec())))),
        Step::Hash(bytes) => Step::Hash(fewer(bytes, &|b| with(Step::Hash(b.to_vec())))),
        Step::Journal { cut, more, flip, keep } => {
            let journal = |more: Vec<u8>| Step::Journal { cut, more, flip, keep };
            journal(fewer(more, &|m| with(journal(m.to_vec()))))
        }
        Step::Delta(mut delta) => {
            let kept = delta.clone();
            delta.inserts = fewer(delta.inserts, &|i| {
                with(Step::Delta(crate::steps::Delta { inserts: i.to_vec(), removes: kept.removes.clone() }))
            });
            let kept = delta.clone();
            delta.removes = fewer(delta.removes, &|r| {
                with(Step::Delta(crate::steps::Delta { inserts: kept.inserts.clone(), removes: r.to_vec() }))
            });
            Step::Delta(delta)
        }
        step => step,
    };
    if with(new.clone()) {
        steps[at] = new;
    }
}
