//! The three records of which the worked journals are made.
use selvaigo::{HashBytes, Idx, Mode, NurseryDelta, NurseryEntryRecord, encode_record};

pub fn tagged(tag: u8) -> HashBytes {
    let mut hash = [0; 32];
    hash[31] = tag;
    HashBytes(hash)
}

pub fn insert(tag: u8, idx: u64, born_round: u32, data: &[u8]) -> NurseryDelta {
    let entry = NurseryEntryRecord { hash: tagged(tag), idx: Idx::new(idx), born_round, data: data.to_vec() };
    NurseryDelta { inserts: vec![entry], removes: vec![] }
}

pub fn remove(tag: u8) -> NurseryDelta {
    NurseryDelta { inserts: vec![], removes: vec![tagged(tag)] }
}

// Three records: two inserts, and the first of them removed.
pub fn three() -> [Vec<u8>; 3] {
    three_in(&Mode::Unkeyed)
}

pub fn three_in(mode: &Mode) -> [Vec<u8>; 3] {
    let deltas = [insert(1, 10, 0, &[0xaa, 0xbb]), insert(2, 11, 1, &[0xcc]), remove(1)];
    [1, 2, 3].map(|id| encode_record(mode, id, &deltas[id as usize - 1]).unwrap().bytes().to_vec())
}
