// The proved calls and the original ones, on one thread, over the same inputs, in turns: a line for each, the ratios of the speeds last.
//
//   bench_node [--quick] [WORD ..]     only the lines whose names contain one of the words; quick: fewer turns
#![allow(dead_code, unused_imports, private_interfaces)]

// The original files name these crates.
extern crate shims as blake3;
extern crate shims as croaring;
extern crate shims as metrics;
extern crate shims as tycho_types;
extern crate shims as tycho_util;

mod measure;

mod storage {
    pub mod shard_state {
        include!(concat!(env!("OUT_DIR"), "/shard_state.rs"));
    }
}

fn main() {
    let (flags, words): (Vec<String>, _) = std::env::args().skip(1).partition(|word| word.starts_with('-'));
    let quick = match flags.iter().map(String::as_str).collect::<Vec<_>>()[..] {
        [] => false,
        ["--quick"] => true,
        _ => panic!("bench_node [--quick] [WORD ..]"),
    };
    storage::shard_state::compare::run(measure::Run::new(words, quick));
}
