//! Records whose payload goes on after the last item, and journals that are converted (document 02, P4): the worked ones, every cut and every changed
//! bit of one, and journals made up at random, beside a plain conversion and the plain reading.
use selvaigo::{
    CellNursery, Converted, DamagedRecord, Dropped, HashBytes, Idx, JournalEnd, JournalScan, Mode, NurseryDelta,
    NurseryEntryRecord, Refusal, Settings, convert_journal, decode_record, encode_record, hash, raw, scan_journal,
};

mod plain;
mod worked;
use plain::{Reading, changed_under_its_hash, decode, defined, parse};
use worked::{remove, three};

fn hex(bytes: &[u8]) -> String {
    bytes.iter().map(|byte| format!("{byte:02x}")).collect()
}

// The record of a payload, with its length and the right hash.
fn record(payload: &[u8]) -> Vec<u8> {
    let stated = [&(payload.len() as u64).to_le_bytes(), payload].concat();
    [&hash(&stated)[..], &stated].concat()
}

fn encoded(id: u64, delta: &NurseryDelta) -> Vec<u8> {
    encode_record(&Mode::Unkeyed, id, delta).unwrap().bytes().to_vec()
}

// A record with more bytes in its payload, after all that is there.
fn with(taken: &[u8], leftovers: &[u8]) -> Vec<u8> {
    record(&[&taken[40..], leftovers].concat())
}

fn refused(bytes: &[u8]) -> u8 {
    decode_record(&Mode::Unkeyed, bytes).map_or_else(Refusal::number, |_| 0)
}

// The reading with the standard delay.
fn read_journal(journal: &[u8], entries: usize, cell_bytes: usize) -> Result<(CellNursery, JournalEnd), DamagedRecord> {
    selvaigo::read_journal(&Mode::Unkeyed, journal, entries, cell_bytes, Settings::STANDARD.delay)
        .map_err(|error| error.damaged().unwrap())
}

// ---- the definition

// Each record up to the first that is refused is written up to the end of its items, with its length and its hash; then the rest as it is.
fn converted(journal: &[u8]) -> Converted {
    let (mut new, mut dropped, mut place) = (Vec::new(), Vec::new(), 0);
    while let Ok(r) = parse(&journal[place..]) {
        new.extend(record(&journal[place + 40..place + r.end]));
        if r.end < r.len {
            dropped.push(Dropped { place: place + r.end, count: r.len - r.end });
        }
        place += r.len;
    }
    new.extend(&journal[place..]);
    Converted { journal: new, dropped }
}

// The call over lent outputs of so many bytes: the lengths, and what was written; what is behind that stays, and after a refusal all does.
fn lent(journal: &[u8], out: usize, dropped: usize) -> Result<(Vec<u8>, Vec<u8>), Refusal> {
    let (mut out, mut dropped) = (vec![9; out], vec![9; dropped]);
    let answer = raw::convert_journal(journal, &mut out, &mut dropped);
    let [len, listed] = answer.unwrap_or([0, 0]);
    assert!(out[len..].iter().chain(&dropped[listed..]).all(|byte| *byte == 9), "outputs are written behind the answer");
    answer.map(|_| (out[..len].to_vec(), dropped[..listed].to_vec()))
}

fn listed(dropped: &[Dropped]) -> Vec<u8> {
    dropped.iter().flat_map(|d| [d.place as u64, d.count as u64]).flat_map(u64::to_le_bytes).collect()
}

// What is said of a place in the old journal, said of it in the new one.
struct Moved<'a>(&'a [Dropped]);

impl Moved<'_> {
    fn place(&self, place: usize) -> usize {
        place - self.0.iter().filter(|d| d.place < place).map(|d| d.count).sum::<usize>()
    }

    fn scan(&self, scan: JournalScan) -> JournalScan {
        JournalScan { place: self.place(scan.place), ..scan }
    }

    fn reading(&self, reading: Reading) -> Reading {
        match reading {
            Ok((listing, end)) => Ok((listing, JournalEnd { place: self.place(end.place), ..end })),
            Err(damaged) => Err(DamagedRecord { place: self.place(damaged.place), ..damaged }),
        }
    }
}

// Both forms of the conversion give the plain one, and the laws hold of it.
fn as_defined(journal: &[u8], entries: usize, cell_bytes: usize) -> Converted {
    let new = convert_journal(journal);
    assert_eq!(new, converted(journal));

    let (len, list) = (new.journal.len(), listed(&new.dropped));
    assert!(len <= journal.len() && list.len() <= journal.len() / 57 * 16);
    let both = Ok((new.journal.clone(), list.clone()));
    assert_eq!(lent(journal, len, list.len()), both);
    assert_eq!(lent(journal, len + 3, list.len() + 17), both);
    for (out, dropped) in [(len.checked_sub(1), Some(list.len())), (Some(len + 1), list.len().checked_sub(1))] {
        if let (Some(out), Some(dropped)) = (out, dropped) {
            assert_eq!(lent(journal, out, dropped), Err(Refusal::OutputFull));
        }
    }

    // Same: where nothing is dropped the journal is as it was.
    assert_eq!(new.dropped.is_empty(), new.journal == journal);
    // Again: a second conversion changes nothing.
    assert_eq!(convert_journal(&new.journal), Converted { journal: new.journal.clone(), dropped: vec![] });
    // Clean: no record that is reached has leftovers, and each that is taken is the one that encoding writes.
    let scan = scan_journal(&Mode::Unkeyed, &new.journal);
    assert_ne!(scan.refusal, Some(Refusal::Leftover));
    let mut place = 0;
    while place < scan.place {
        let taken = decode_record(&Mode::Unkeyed, &new.journal[place..]).unwrap();
        assert_eq!(encoded(taken.id, &taken.delta()), new.journal[place..][..taken.record_len()]);
        place += taken.record_len();
    }
    // Reads: scan and reading are what they were by the rule before.
    let (then, reading) = defined(parse, journal, entries, cell_bytes);
    let moved = Moved(&new.dropped);
    assert_eq!(scan, moved.scan(then));
    let read = read_journal(&new.journal, entries, cell_bytes).map(|(nursery, end)| (nursery.snapshot_entries(), end));
    assert_eq!(read, moved.reading(reading));
    // Of the old journal the scan is that of the rule now.
    assert_eq!(scan_journal(&Mode::Unkeyed, journal), defined(decode, journal, entries, cell_bytes).0);
    new
}

// ---- the worked ones

// Id 7, a remove of the hash 00..05, and what follows it.
fn seven(leftovers: &[u8]) -> Vec<u8> {
    with(&encoded(7, &remove(5)), leftovers)
}

#[test]
fn a_record_with_three_bytes_left_over() {
    let payload = [&7_u64.to_le_bytes()[..], &[0, 0, 0, 0, 1, 0, 0, 0], &[0; 31], &[5]].concat();
    assert_eq!(seven(&[]), record(&payload));

    let (taken, old) = (seven(&[]), seven(&[7, 8, 9]));
    assert_eq!((taken.len(), old.len(), old[32]), (88, 91, 0x33));
    assert_eq!(hex(&old[..32]), "9ffe2411c8ef99d308c1eb915c802551e1f628031b030dda07684d4a4df35031");
    assert_eq!(hex(&taken[..32]), "2f0fcd4bed2ac68ccef12e1211ca46f54a92dc2bd87d68114434f37089c54c1a");
    assert_eq!((refused(&old), refused(&taken)), (22, 0));
    assert_eq!(as_defined(&old, 1, 0), Converted { journal: taken, dropped: vec![Dropped { place: 88, count: 3 }] });
}

#[test]
fn lengths_around_the_items() {
    let stated = |len: usize| refused(&record(&[0; 17][..len]));
    assert_eq!([15, 16, 17].map(stated), [19, 0, 22]);
    // A whole remove too many, an item that counts in no number.
    let removes = [&[0; 12][..], &[1, 0, 0, 0], &[4; 64]].concat();
    assert_eq!([47, 48, 49, 80].map(|len| refused(&record(&removes[..len]))), [19, 0, 22, 22]);
    // A cell of two bytes: of one it leaves a byte over, of three it isn't all there.
    let [first, ..] = three();
    let cells = [1, 2, 3].map(|len| {
        let mut payload = first[40..].to_vec();
        payload[60] = len;
        refused(&record(&payload))
    });
    assert_eq!(cells, [22, 0, 19]);
    // A record without an item stays one.
    let empty = record(&[0; 16]);
    assert_eq!(
        as_defined(&record(&[0; 99]), 0, 0),
        Converted { journal: empty, dropped: vec![Dropped { place: 56, count: 83 }] }
    );
}

#[test]
fn a_journal_of_three() {
    let [first, _, third] = three();
    let old = [&first[..], &seven(&[7, 8, 9]), &third].concat();
    let new = [&first[..], &seven(&[]), &third].concat();
    assert_eq!((old.len(), new.len()), (283, 280));
    let damaged = DamagedRecord { records: 1, place: 104, refusal: Refusal::Leftover };
    assert_eq!(read_journal(&old, 3, 9).unwrap_err(), damaged);
    assert_eq!((damaged.number(), scan_journal(&Mode::Unkeyed, &old).damaged()), (21, Some(damaged)));
    assert_eq!(damaged.to_string(), "damaged record at byte 104 of the journal, behind 1 record: leftover");

    assert_eq!(as_defined(&old, 3, 9), Converted { journal: new.clone(), dropped: vec![Dropped { place: 192, count: 3 }] });
    let (journal, list) = lent(&old, 280, 16).unwrap();
    assert_eq!((journal, hex(&list).as_str()), (new, "c0000000000000000300000000000000"));
    for (out, dropped) in [(279, 16), (280, 15), (283, 0), (0, 99), (0, 0)] {
        assert_eq!(lent(&old, out, dropped), Err(Refusal::OutputFull));
    }
    assert_eq!(lent(&[], 0, 0), Ok((vec![], vec![])));
}

#[test]
fn what_stands_behind_the_first_refused_record_stays() {
    let [first, second, third] = three();
    let old = seven(&[7, 8, 9]);
    let mut wrong = first.clone();
    wrong[0] ^= 1;
    let mut far = first.clone();
    far[32..40].copy_from_slice(&[0xf8, 0xff, 0xff, 0xff, 0xff, 0xff, 0xff, 0xff]);
    let mut long = first.clone();
    long[38] = 1;
    let misfit = record(&second[40..80]);
    for (bad, number) in [(&wrong, 18), (&far, 17), (&long, 16), (&misfit, 19)] {
        let journal = [&old[..], bad, &old].concat();
        let new = as_defined(&journal, 3, 9);
        assert_eq!(new.journal, [&seven(&[])[..], bad, &old].concat());
        assert_eq!(new.dropped, [Dropped { place: 88, count: 3 }]);
        assert_eq!(scan_journal(&Mode::Unkeyed, &new.journal).refusal.unwrap().number(), number);
    }
    // A cut inside the leftovers is a cut.
    let journal = [&third[..], &old[..90]].concat();
    assert_eq!(as_defined(&journal, 3, 9), Converted { journal, dropped: vec![] });
}

#[test]
fn places_and_counts_beyond_two_bytes() {
    let cell = |hash: u8, len: usize| NurseryDelta {
        inserts: vec![NurseryEntryRecord { hash: HashBytes([hash; 32]), idx: Idx::new(1), born_round: 2, data: vec![hash; len] }],
        removes: vec![],
    };
    let (first, second) = (encoded(1, &cell(1, 65_535)), encoded(2, &cell(2, 65_535)));
    let journal = [with(&first, &[7]), with(&second, &[8; 70_000]), first[..99].to_vec()].concat();
    let new = as_defined(&journal, 2, 131_070);
    assert_eq!(new.journal, [&first[..], &second, &first[..99]].concat());
    // A record of one insert has 102 bytes beside its cell.
    let (one, two) = (65_637, 2 * 65_637 + 1);
    assert_eq!(new.dropped, [Dropped { place: one, count: 1 }, Dropped { place: two, count: 70_000 }]);
}

// ---- every one

// A journal with leftovers in its second and its third record.
fn leftovers() -> Vec<u8> {
    let [first, second, third] = three();
    [first, with(&second, &[7, 8, 9]), with(&third, &[0; 32])].concat()
}

#[test]
fn every_cut() {
    let journal = leftovers();
    for k in 0..=journal.len() {
        let new = as_defined(&journal[..k], 3, 9);
        // The second record ends at 210, the third at 330.
        assert_eq!(new.dropped.len(), usize::from(k >= 210) + usize::from(k >= 330));
    }
}

#[test]
fn every_changed_bit() {
    let journal = leftovers();
    for bit in 0..8 * journal.len() {
        let mut changed = journal.clone();
        changed[bit / 8] ^= 1 << (bit % 8);
        // Whatever is changed in a record, it is refused: what stands before it is converted.
        assert_eq!(as_defined(&changed, 3, 9).dropped.len(), usize::from(bit / 8 >= 210));
    }
}

#[test]
fn every_changed_bit_under_the_right_hash() {
    let journal = leftovers();
    let mut seen = [0; 4];
    for bit in 8 * 136..8 * 210 {
        seen[as_defined(&changed_under_its_hash(&journal, 104, bit), 3, 9).dropped.len()] += 1;
    }
    // None is dropped where the second record is refused now, only its own where the third is.
    assert!(seen[..3].iter().all(|n| *n > 0) && seen[3] == 0, "{seen:?}");
}

// ---- made up at random

/// The same numbers in every run.
struct Numbers(u64);

impl Numbers {
    fn below(&mut self, n: u64) -> u64 {
        self.0 = self.0.wrapping_mul(6_364_136_223_846_793_005).wrapping_add(1_442_695_040_888_963_407);
        (self.0 >> 33) % n
    }

    fn bytes(&mut self, n: u64) -> Vec<u8> {
        (0..n).map(|_| self.below(256) as u8).collect()
    }

    fn hash(&mut self) -> HashBytes {
        HashBytes([self.below(30) as u8; 32])
    }

    fn delta(&mut self) -> NurseryDelta {
        let entry = |n: &mut Self| NurseryEntryRecord {
            hash: n.hash(),
            idx: Idx::new(n.below(1 << 31)),
            born_round: n.below(400) as u32,
            data: {
                let len = if n.below(30) == 0 { 300 } else { n.below(5) };
                n.bytes(len)
            },
        };
        let inserts = (0..self.below(4)).map(|_| entry(self)).collect();
        let removes = (0..self.below(4)).map(|_| self.hash()).collect();
        NurseryDelta { inserts, removes }
    }

    /// A record as encoding writes it, or one with leftovers: a few bytes, a whole remove, a whole record.
    fn record(&mut self) -> Vec<u8> {
        let taken = encoded(self.below(9), &self.delta());
        let leftovers = match self.below(10) {
            0..5 => return taken,
            5 => vec![0],
            6 => vec![5; 32],
            7 => encoded(self.below(9), &self.delta()),
            _ => {
                let n = 1 + self.below(80);
                self.bytes(n)
            }
        };
        with(&taken, &leftovers)
    }

    /// A record that is refused with one of the numbers 16 to 19.
    fn refused(&mut self) -> Vec<u8> {
        let mut bad = self.record();
        match self.below(6) {
            0 => bad.truncate(self.below(bad.len() as u64) as usize),
            1 => bad[38] = 1,
            2 => bad[32..40].copy_from_slice(&(u64::MAX - self.below(8)).to_le_bytes()),
            3 => bad = record(&bad[40..40 + self.below(16) as usize]),
            4 => {
                bad[50] = 1;
                bad = record(&bad[40..]);
            }
            _ => bad[self.below(32) as usize] ^= 1 << self.below(8),
        }
        bad
    }

    /// Records, often one among them that is refused.
    fn journal(&mut self) -> Vec<u8> {
        let mut journal: Vec<u8> = (0..self.below(6)).flat_map(|_| self.record()).collect();
        if self.below(2) == 0 {
            journal.extend(self.refused());
            journal.extend((0..self.below(4)).flat_map(|_| self.record()));
        }
        journal
    }
}

#[test]
fn over_journals_made_up_at_random() {
    let mut n = Numbers(4);
    // What was dropped, and what the reading of the new journal ends with, or what its damaged record is refused with.
    let (mut dropped, mut ends) = ([0; 6], [0; 23]);
    for _ in 0..20_000 {
        let (entries, cell_bytes) = (n.below(12) as usize, n.below(40) as usize);
        let new = as_defined(&n.journal(), entries, cell_bytes);
        dropped[new.dropped.len().min(5)] += 1;
        let end = match read_journal(&new.journal, entries, cell_bytes) {
            Ok((_, end)) => end.refusal,
            Err(damaged) => Some(damaged.refusal),
        };
        ends[usize::from(end.map_or(0, Refusal::number))] += 1;
    }
    // What is compared did come about.
    assert!(dropped.iter().all(|n| *n > 100), "{dropped:?}");
    assert!([0, 12, 13, 16, 17, 18, 19].iter().all(|number| ends[*number] > 300), "{ends:?}");
}
