// The proved hash and the official one, without a key and under one, on one thread, over the same buffers, in turns.
//
//   bench_blake3                  two lines for each size: the time of a hash and the ratio of the two speeds
//   bench_blake3 WHO SIZE TIMES   only hashes, for callgrind to count: WHO is proved, official, proved_keyed or official_keyed
use std::env;
use std::hint::black_box;
use std::time::Instant;

extern "C" {
    fn selvaigo_hash(bytes: *const u8, len: usize, hash: *mut [u8; 32]);
    fn selvaigo_keyed_hash(key: *const u8, key_len: usize, bytes: *const u8, len: usize, hash: *mut [u8; 32]) -> u8;
}

type Hash = fn(&[u8]) -> [u8; 32];

const KEY: [u8; 32] = *b"whats the Elvish word for friend";

fn proved(bytes: &[u8]) -> [u8; 32] {
    let mut out = [0; 32];
    unsafe { selvaigo_hash(bytes.as_ptr(), bytes.len(), &mut out) };
    out
}

fn official(bytes: &[u8]) -> [u8; 32] {
    *blake3::hash(bytes).as_bytes()
}

fn proved_keyed(bytes: &[u8]) -> [u8; 32] {
    let mut out = [0; 32];
    let answer = unsafe { selvaigo_keyed_hash(KEY.as_ptr(), KEY.len(), bytes.as_ptr(), bytes.len(), &mut out) };
    assert_eq!(answer, 0);
    out
}

fn official_keyed(bytes: &[u8]) -> [u8; 32] {
    *blake3::keyed_hash(&KEY, bytes).as_bytes()
}

// Nanoseconds for a hash, over enough hashes that a turn takes about half a millisecond.
fn turn(hash: Hash, bytes: &[u8], times: usize) -> f64 {
    let start = Instant::now();
    for _ in 0..times {
        black_box(hash(black_box(bytes)));
    }
    start.elapsed().as_nanos() as f64 / times as f64
}

// The median is the figure: a turn that something else disturbed doesn't count.
fn median(mut turns: Vec<f64>) -> f64 {
    turns.sort_by(f64::total_cmp);
    turns[turns.len() / 2]
}

fn compare(size: usize, mode: &str, proved: Hash, official: Hash) {
    let bytes: Vec<u8> = (0..size).map(|i| (i % 251) as u8).collect();
    assert_eq!(proved(&bytes), official(&bytes), "the two hashes of {size} bytes{mode} differ");
    let times = (500_000 / (size + 100)).max(1);
    let (mut ours, mut theirs) = (Vec::new(), Vec::new());
    for _ in 0..501 {
        ours.push(turn(proved, &bytes, times));
        theirs.push(turn(official, &bytes, times));
    }
    let (ours, theirs) = (median(ours), median(theirs));
    println!("{size:>8} bytes{mode:<7}: proved {ours:>10.0} ns, official {theirs:>10.0} ns, ratio {:.2}", theirs / ours);
}

fn main() {
    let words: Vec<String> = env::args().skip(1).collect();
    if let [who, size, times] = &words[..] {
        let hash: Hash = match who.as_str() {
            "proved" => proved,
            "official" => official,
            "proved_keyed" => proved_keyed,
            "official_keyed" => official_keyed,
            _ => panic!("no hash: {who}"),
        };
        let bytes = vec![7; size.parse().unwrap()];
        for _ in 0..times.parse().unwrap() {
            black_box(hash(black_box(&bytes)));
        }
        return;
    }
    for size in [64, 1024, 16384, 1 << 20] {
        compare(size, "", proved, official);
        compare(size, ", keyed", proved_keyed, official_keyed);
    }
}
