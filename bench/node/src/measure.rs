// Times, and the table of them.

use std::cell::Cell;

// What is timed: the seconds of processor time that so many turns take, without what prepares them.
pub type Side<'a> = (usize, Box<dyn FnMut(usize) -> f64 + 'a>);

pub struct Run {
    words: Vec<String>,
    quick: bool,
    lines: Cell<usize>,
}

// Seconds of processor time that this thread has taken.
pub fn clock() -> f64 {
    let mut t = libc::timespec { tv_sec: 0, tv_nsec: 0 };
    // SAFETY: the clock is there, and the time is written.
    unsafe { libc::clock_gettime(libc::CLOCK_THREAD_CPUTIME_ID, &mut t) };
    t.tv_sec as f64 + t.tv_nsec as f64 * 1e-9
}

// A side whose turn is as many calls, with nothing to prepare.
pub fn side<'a>(calls: usize, mut f: impl FnMut() + 'a) -> Side<'a> {
    let turns = move |times| {
        let start = clock();
        for _ in 0..times {
            f();
        }
        clock() - start
    };
    (calls, Box::new(turns))
}

// A side whose turn takes up what was prepared for it.
pub fn prepared<'a, T>(calls: usize, mut prepare: impl FnMut() -> T + 'a, mut f: impl FnMut(&mut T) + 'a) -> Side<'a> {
    let turns = move |times| {
        let mut spent = 0.0;
        for _ in 0..times {
            let mut ready = prepare();
            let start = clock();
            f(&mut ready);
            spent += clock() - start;
        }
        spent
    };
    (calls, Box::new(turns))
}

fn median(mut turns: Vec<f64>) -> f64 {
    turns.sort_by(f64::total_cmp);
    turns[turns.len() / 2]
}

pub fn with_commas(n: u64) -> String {
    let digits = n.to_string();
    let groups: Vec<&str> = digits.as_bytes().rchunks(3).rev().map(|g| std::str::from_utf8(g).unwrap()).collect();
    groups.join(",")
}

// Three digits that count, two of a small number.
fn short(x: f64) -> String {
    if x >= 1000.0 {
        return with_commas(x as u64);
    }
    let after_the_first = if x < 0.1 { 1 } else { 2 };
    format!("{x:.0$}", (after_the_first - x.log10().floor() as i32) as usize)
}

impl Run {
    pub fn new(words: Vec<String>, quick: bool) -> Self {
        Self { words, quick, lines: Cell::new(0) }
    }

    pub fn wanted(&self, what: &str) -> bool {
        self.words.is_empty() || self.words.iter().any(|w| what.contains(w.as_str()))
    }

    pub fn head(&self) {
        println!("| µs a call | port | port, checked | original | ratio | ratio, checked |\n|---|---|---|---|---|---|");
    }

    pub fn foot(&self) {
        println!(
            "{} lines; in each of them both sides gave the same answers, but for the hashes of records under a key.",
            self.lines.get()
        );
    }

    pub fn head_of_conversions(&self) {
        println!(
            "\n| µs a call | port | hashing it once | hashing each record once | times the hashing | times that of each |\n|---|---|---|---|---|---|"
        );
    }

    // The sides take turns of a millisecond or one call, for about a second in all, with what prepares them; a first turn that takes longer than
    // that is a side's only one.
    fn medians(&self, sides: &mut [Side<'_>]) -> Vec<f64> {
        let (whole, most) = if self.quick { (0.15, 15) } else { (1.0, 101) };
        let mut took = Vec::new();
        let mut costs = Vec::new();
        for (_, f) in &mut *sides {
            let start = clock();
            took.push(vec![f(1)]);
            costs.push(clock() - start);
        }
        let times: Vec<usize> = costs.iter().map(|cost| (1e-3 / cost) as usize + 1).collect();
        let again: Vec<usize> = (0..sides.len()).filter(|k| costs[*k] < whole).collect();
        let of_all: f64 = again.iter().map(|k| costs[*k] * times[*k] as f64).sum();
        for _ in 0..((whole / of_all) as usize).clamp(2, most) {
            for &k in &again {
                took[k].push(sides[k].1(times[k]) / times[k] as f64);
            }
        }
        took.into_iter().zip(sides).map(|(took, (calls, _))| median(took) * 1e6 / *calls as f64).collect()
    }

    // The port's side, which is the held form where there are two; then the checked form, if there is one; then the original.
    pub fn line<const N: usize>(&self, what: &str, mut sides: [Side<'_>; N]) {
        let us = self.medians(&mut sides);
        self.lines.set(self.lines.get() + 1);
        let (port, original) = (us[0], us[N - 1]);
        let (checked, behind) = match us[1..N - 1] {
            [checked] => (short(checked), short(original / checked)),
            _ => ("—".into(), "—".into()),
        };
        println!("| {what} | {} | {checked} | {} | {} | {behind} |", short(port), short(original), short(original / port));
    }

    // What the original has no call for: the port's side, and two that it is measured by.
    pub fn conversion(&self, what: &str, mut sides: [Side<'_>; 3]) {
        let us = self.medians(&mut sides);
        let [port, whole, each] = [us[0], us[1], us[2]];
        println!(
            "| {what} | {} | {} | {} | {} | {} |",
            short(port),
            short(whole),
            short(each),
            short(port / whole),
            short(port / each)
        );
    }
}
