//! Records and journals by the documents, in plain Rust.
use std::collections::BTreeMap;

use selvaigo::{DamagedRecord, HashBytes, Idx, JournalEnd, JournalScan, NurseryDelta, NurseryEntryRecord, Refusal, hash};

fn number(bytes: &[u8]) -> u64 {
    bytes.iter().rev().fold(0, |n, byte| n << 8 | u64::from(*byte))
}

// The items of a payload, and the place in it where they end; none where one runs past its end.
fn items(payload: &[u8]) -> Option<(NurseryDelta, usize)> {
    let (mut delta, mut at) = (NurseryDelta::default(), 16);
    for _ in 0..number(payload.get(8..12)?) {
        let head = payload.get(at..at + 46)?;
        let len = number(&head[44..]) as usize;
        delta.inserts.push(NurseryEntryRecord {
            hash: HashBytes(head[..32].try_into().unwrap()),
            idx: Idx::new(number(&head[32..40])),
            born_round: number(&head[40..44]) as u32,
            data: payload.get(at + 46..at + 46 + len)?.to_vec(),
        });
        at += 46 + len;
    }
    for _ in 0..number(payload.get(12..16)?) {
        delta.removes.push(HashBytes(payload.get(at..at + 32)?.try_into().unwrap()));
        at += 32;
    }
    Some((delta, at))
}

// A record: its length, the place in it where its items end, and its delta.
pub struct Record {
    pub len: usize,
    pub end: usize,
    pub delta: NurseryDelta,
}

// The record that bytes start with, whatever its payload has after the last item.
pub fn parse(bytes: &[u8]) -> Result<Record, Refusal> {
    let stated = number(bytes.get(32..40).ok_or(Refusal::ShortRecord)?);
    if stated >= u64::MAX - 7 {
        return Err(Refusal::FarLength);
    }
    let payload = bytes[40..].get(..stated as usize).ok_or(Refusal::ShortRecord)?;
    if hash(&bytes[32..40 + payload.len()]) != bytes[..32] {
        return Err(Refusal::Mismatch);
    }
    let (delta, end) = items(payload).ok_or(Refusal::Misfit)?;
    Ok(Record { len: 40 + payload.len(), end: 40 + end, delta })
}

// The same, with nothing after the last item.
pub fn decode(bytes: &[u8]) -> Result<Record, Refusal> {
    parse(bytes).and_then(|record| if record.end < record.len { Err(Refusal::Leftover) } else { Ok(record) })
}

// One of the two.
pub type Rule = fn(&[u8]) -> Result<Record, Refusal>;

// Records one after another, each given to a step, up to the first that is refused or that the step refuses.
fn records(rule: Rule, journal: &[u8], mut step: impl FnMut(NurseryDelta) -> Result<(), Refusal>) -> JournalScan {
    let mut scan = JournalScan { records: 0, place: 0, refusal: None };
    while scan.place < journal.len() {
        match rule(&journal[scan.place..]).and_then(|record| step(record.delta).map(|()| record.len)) {
            Ok(len) => scan = JournalScan { records: scan.records + 1, place: scan.place + len, refusal: None },
            Err(refusal) => return JournalScan { refusal: Some(refusal), ..scan },
        }
    }
    scan
}

// What a reading leaves: the listing and where it ended, or the damaged record.
pub type Reading = Result<(Vec<NurseryEntryRecord>, JournalEnd), DamagedRecord>;

// The scan and the reading of a journal.
pub fn defined(rule: Rule, journal: &[u8], entries: usize, cell_bytes: usize) -> (JournalScan, Reading) {
    let scan = records(rule, journal, |_| Ok(()));
    if let Some(refusal) = scan.refusal.filter(|refusal| refusal.number() != 16) {
        return (scan, Err(DamagedRecord { records: scan.records, place: scan.place, refusal }));
    }
    let mut all: BTreeMap<HashBytes, NurseryEntryRecord> = BTreeMap::new();
    let end = records(rule, journal, |delta| {
        let mut next = all.clone();
        for e in delta.inserts {
            if next.insert(e.hash, e).is_some() {
                return Err(Refusal::Present);
            }
        }
        if next.len() > entries || next.values().map(|e| e.data.len()).sum::<usize>() > cell_bytes {
            return Err(Refusal::NurseryFull);
        }
        delta.removes.iter().for_each(|hash| _ = next.remove(hash));
        all = next;
        Ok(())
    });
    (scan, Ok((all.into_values().collect(), JournalEnd { applied: end.records, place: end.place, refusal: end.refusal })))
}

// A journal with a bit changed in the record at a place, and there the right hash of the length that is stated now and of so many bytes, if they are there.
pub fn changed_under_its_hash(journal: &[u8], place: usize, bit: usize) -> Vec<u8> {
    let mut changed = journal.to_vec();
    changed[bit / 8] ^= 1 << (bit % 8);
    let (head, rest) = changed[place..].split_at_mut(32);
    let len = usize::try_from(number(&rest[..8])).unwrap();
    if let Some(hashed) = rest.get(..len.saturating_add(8)) {
        head.copy_from_slice(&hash(hashed));
    }
    changed
}
