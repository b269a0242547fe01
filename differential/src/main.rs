//! The port beside the original Rust, on generated steps: README.md has the commands.

// The original files name these crates.
extern crate shims as blake3;
extern crate shims as croaring;
extern crate shims as metrics;
extern crate shims as tycho_types;
extern crate shims as tycho_util;

mod compare;
mod definition;
mod generate;
mod port;
mod roaring;
mod sample;
mod shrink;
mod steps;

// Not all of the original is called here.
#[allow(dead_code, unused_imports, private_interfaces)]
mod storage {
    pub mod shard_state {
        include!(concat!(env!("OUT_DIR"), "/shard_state.rs"));
    }
}

use std::fs::File;
use std::io::Write;
use std::os::fd::FromRawFd;
use std::process::ExitCode;
use std::sync::Arc;
use std::time::{Duration, Instant};

use compare::{Sides, Tally};
use rayon::ThreadPool;
use steps::{KINDS, Sizes, Step};

struct Orders {
    steps: u64,
    seconds: u64,
    seed: u64,
    run: Option<u64>,
    replay: Option<String>,
    sample: Option<String>,
    threads: usize,
    lie: bool,
}

fn orders() -> Result<Orders, String> {
    let mut o =
        Orders { steps: 1_000_000, seconds: u64::MAX, seed: 1, run: None, replay: None, sample: None, threads: 1, lie: false };
    let mut words = std::env::args().skip(1);
    while let Some(word) = words.next() {
        let mut number = || words.next().and_then(|n| n.parse().ok()).ok_or(format!("{word} takes a number"));
        match word.as_str() {
            "--steps" => o.steps = number()?,
            "--seconds" => (o.seconds, o.steps) = (number()?, u64::MAX),
            "--seed" => o.seed = number()?,
            "--threads" => o.threads = number()? as usize,
            "--run" => o.run = Some(number()?),
            "--replay" => o.replay = Some(words.next().ok_or("--replay takes a file")?),
            "--sample" => o.sample = Some(words.next().ok_or("--sample takes the folder of crates")?),
            "--lie" => o.lie = true,
            _ => return Err(format!("unknown: {word}")),
        }
    }
    Ok(o)
}

struct Program {
    orders: Orders,
    pool: Arc<ThreadPool>,
    progress: File,
}

/// Standard error, for progress alone: what the library says there about damaged sets goes nowhere.
fn own_standard_error() -> File {
    // SAFETY: the numbers are those of files that are open, and the copy has no other owner.
    unsafe {
        let copy = libc::dup(2);
        let nowhere = libc::open(c"/dev/null".as_ptr(), libc::O_WRONLY);
        libc::dup2(nowhere, 2);
        File::from_raw_fd(copy)
    }
}

/// A difference: what it is, and the steps up to it.
struct Difference {
    what: String,
    sizes: Sizes,
    steps: Vec<Step>,
}

impl Program {
    /// The steps, each on all sides: the tally, or the place of the first difference and what it is.
    fn replay(&self, sizes: &Sizes, steps: &[Step]) -> Result<Tally, (usize, String)> {
        let mut sides = Sides::new(*sizes, self.pool.clone(), self.orders.lie);
        for (at, step) in steps.iter().enumerate() {
            sides.step(step).map_err(|what| (at, what))?;
        }
        Ok(sides.tally)
    }

    /// A run of generated steps, with a snapshot and a listing at its end.
    fn run(&self, number: u64) -> Result<Tally, Difference> {
        let mut run = generate::Run::new(self.orders.seed.wrapping_mul(0x1_0000_0000).wrapping_add(number));
        let mut sides = Sides::new(run.sizes, self.pool.clone(), self.orders.lie);
        let mut steps = Vec::new();
        while steps.len() < run.steps + 2 {
            let step = match steps.len().checked_sub(run.steps) {
                None => run.step(&sides),
                Some(0) => Step::Snapshot(steps::Room::Exact),
                Some(_) => Step::Listing(steps::Room::Exact),
            };
            steps.push(step);
            if let Err(what) = sides.step(steps.last().unwrap()) {
                return Err(Difference { what, sizes: run.sizes, steps });
            }
        }
        Ok(sides.tally)
    }

    fn report(&self, number: u64, d: Difference) {
        println!("seed {}, run {number}, step {}: {}", self.orders.seed, d.steps.len() - 1, d.what);
        let steps = shrink::smallest(&d.sizes, d.steps, &|sizes, steps| self.replay(sizes, steps).is_err());
        let what = self.replay(&d.sizes, &steps).err().map_or(d.what, |(_, what)| what);
        println!("the smallest steps found, for a file to --replay:\n# {what}\n{}", d.sizes);
        steps.iter().for_each(|step| println!("{step}"));
    }

    fn all(&self) -> bool {
        let start = Instant::now();
        let (mut tally, mut said, mut number) = (Tally::default(), start, self.orders.run.unwrap_or(0));
        while tally.total() < self.orders.steps && start.elapsed() < Duration::from_secs(self.orders.seconds) {
            match self.run(number) {
                Ok(more) => tally.add(&more),
                Err(difference) => {
                    self.report(number, difference);
                    print(&tally, number, start);
                    return false;
                }
            }
            number += 1;
            if self.orders.run.is_some() {
                break;
            }
            if said.elapsed() > Duration::from_secs(10) {
                said = Instant::now();
                let line = format!("{} s: {number} runs, {} steps\n", start.elapsed().as_secs(), tally.total());
                _ = (&self.progress).write_all(line.as_bytes());
            }
        }
        print(&tally, number, start);
        true
    }

    fn file(&self, path: &str) -> bool {
        let text = std::fs::read_to_string(path).expect(path);
        let (sizes, steps) = steps::parse(&text).expect(path);
        match self.replay(&sizes, &steps) {
            Ok(tally) => println!("{} steps, no difference", tally.total()),
            Err((at, what)) => {
                println!("step {at}: {what}");
                return false;
            }
        }
        true
    }
}

fn print(tally: &Tally, runs: u64, start: Instant) {
    println!("{} steps in {runs} runs agree, {} s", tally.total(), start.elapsed().as_secs());
    for (name, n) in KINDS.iter().zip(tally.steps) {
        println!("  {name:<14}{n:>12}");
    }
    println!("{} transitions, {} items, {} bytes", tally.transitions, tally.items, tally.bytes);
    println!("refusals, as the definition has them:");
    for (number, n) in tally.refused.iter().enumerate().filter(|(_, n)| **n > 0) {
        println!("  {number:<14}{n:>12}");
    }
    let [as_they_are, raised] = tally.loaded;
    println!("snapshots loaded: {as_they_are} with the live total that they have, {raised} with it raised");
    println!("journals, with the number that ended them, or that their damaged record is refused with:");
    for ((how, number), n) in &tally.journals {
        println!("  {how:<34}{number:>2}{n:>12}");
    }
    println!(
        "journals converted, {} records with leftovers among them, with the number that their records end with:",
        tally.dropped
    );
    for ((what, number), n) in &tally.converted {
        println!("  {what:<34}{number:>2}{n:>12}");
    }
    println!("known differences met, by their numbers in docs/DIFFERENCES.md:");
    for ((name, theirs), n) in &tally.known {
        println!("  {name:<14}{n:>12}  the original {theirs}");
    }
}

fn main() -> ExitCode {
    let orders = match orders() {
        Ok(orders) => orders,
        Err(what) => {
            eprintln!("{what}; see differential/README.md");
            return ExitCode::from(2);
        }
    };
    let pool = Arc::new(rayon::ThreadPoolBuilder::new().num_threads(orders.threads).build().unwrap());
    if let Some(path) = &orders.sample {
        pool.install(|| sample::write(path, orders.seed, pool.clone()));
        return ExitCode::SUCCESS;
    }
    // Foreseen panics say nothing; others are differences, which say their words.
    std::panic::set_hook(Box::new(|_| {}));
    let program = Program { orders, pool: pool.clone(), progress: own_standard_error() };
    // Inside the pool, so that the original passes no work to another thread.
    let fine = pool.install(|| match &program.orders.replay {
        Some(path) => program.file(path),
        None => program.all(),
    });
    ExitCode::from(u8::from(!fine))
}
