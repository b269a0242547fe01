//! Journals: records end to end.
use std::error::Error;
use std::fmt;

use crate::{CellNursery, Mode, Refusal, raw, size};

/// How far the records of a journal are taken one after another, whatever their deltas are.
#[derive(Debug, Clone, Copy, PartialEq, Eq)]
pub struct JournalScan {
    /// How many records are taken.
    pub records: u64,
    /// The place after the last of them.
    pub place: usize,
    /// What the record there is refused with; none at the journal's end. With [`Refusal::ShortRecord`] it is cut.
    pub refusal: Option<Refusal>,
}

impl JournalScan {
    /// The damaged record, if one was found. Reading the journal is then refused.
    pub fn damaged(&self) -> Option<DamagedRecord> {
        let refusal = self.refusal.filter(|refusal| *refusal != Refusal::ShortRecord)?;
        Some(DamagedRecord { records: self.records, place: self.place, refusal })
    }
}

/// The records of a journal, hashed in a mode, up to its end or the first one that is refused. None is applied.
pub fn scan_journal(mode: &Mode, journal: &[u8]) -> JournalScan {
    raw::scan_journal(mode.key(), journal).expect("a key of 32 bytes, or none")
}

/// A record of a journal that is refused and not cut: why the reading of the journal was refused, with [`Refusal::Damaged`].
///
/// A first record, at place 0, that is refused with [`Refusal::Mismatch`] may have no damage: so are those of a box with another key, or in another [`Mode`].
#[derive(Debug, Clone, Copy, PartialEq, Eq)]
pub struct DamagedRecord {
    /// How many records stand before it.
    pub records: u64,
    /// The place where it starts. The bytes before it are a journal with no damage.
    pub place: usize,
    /// What it is refused with by itself. With [`Refusal::Leftover`] it is one of the time before that refusal, and [`convert_journal`] rewrites the journal.
    pub refusal: Refusal,
}

impl DamagedRecord {
    /// The number that the reading is refused with: that of [`Refusal::Damaged`].
    pub const fn number(&self) -> u8 {
        Refusal::Damaged.number()
    }
}

impl fmt::Display for DamagedRecord {
    fn fmt(&self, f: &mut fmt::Formatter<'_>) -> fmt::Result {
        let Self { records, place, refusal } = self;
        let s = if *records == 1 { "" } else { "s" };
        write!(f, "damaged record at byte {place} of the journal, behind {records} record{s}: {refusal}")
    }
}

impl Error for DamagedRecord {}

/// Where the reading of a journal ended. Such an end is no refusal of the reading: what was applied stays.
#[derive(Debug, Clone, Copy, PartialEq, Eq)]
pub struct JournalEnd {
    /// How many records were applied.
    pub applied: u64,
    /// The place after the last of them.
    pub place: usize,
    /// What ended it there: [`Refusal::ShortRecord`] where the record is cut, [`Refusal::Present`] or [`Refusal::NurseryFull`] where its delta is
    /// refused; none at the journal's end.
    pub refusal: Option<Refusal>,
}

/// Why a journal couldn't be read.
#[derive(Debug, Clone, Copy, PartialEq, Eq)]
pub enum JournalError {
    /// The delay is outside its range: [`Refusal::BadSetting`]. It isn't the key, as a [`Mode`] has none that is refused. Of the journal nothing is known.
    Setting(Refusal),
    /// The record for which it is refused, with [`Refusal::Damaged`].
    Damaged(DamagedRecord),
}

impl JournalError {
    /// The number that the reading is refused with.
    pub const fn number(&self) -> u8 {
        match self {
            Self::Setting(refusal) => refusal.number(),
            Self::Damaged(damaged) => damaged.number(),
        }
    }

    /// The damaged record, if that is why.
    pub const fn damaged(&self) -> Option<DamagedRecord> {
        match self {
            Self::Setting(_) => None,
            Self::Damaged(damaged) => Some(*damaged),
        }
    }
}

impl From<DamagedRecord> for JournalError {
    fn from(damaged: DamagedRecord) -> Self {
        Self::Damaged(damaged)
    }
}

impl fmt::Display for JournalError {
    fn fmt(&self, f: &mut fmt::Formatter<'_>) -> fmt::Result {
        match self {
            Self::Setting(refusal) => refusal.fmt(f),
            Self::Damaged(damaged) => damaged.fmt(f),
        }
    }
}

impl Error for JournalError {}

/// The nursery that a journal, hashed in a mode, makes out of an empty one with room for so many entries and cell bytes and with a delay, and where its reading
/// ended. A delay outside its range is refused, whatever the journal is. A damaged record, wherever it stands before the journal's end or the first cut, refuses
/// the whole reading; a whole record of another key is one.
///
/// # Panics
///
/// Where the room is more than a slice can have.
pub fn read_journal(
    mode: &Mode,
    journal: &[u8],
    entries: usize,
    cell_bytes: usize,
    delay: u64,
) -> Result<(CellNursery, JournalEnd), JournalError> {
    CellNursery::read(mode, journal, entries, cell_bytes, delay).map_err(|refusal| match refusal {
        // The reading says that there is one, and a second scan which.
        Refusal::Damaged => {
            scan_journal(mode, journal).damaged().expect("a damaged record, for which the reading was refused").into()
        }
        setting => JournalError::Setting(setting),
    })
}

/// A journal that was rewritten.
#[derive(Debug, Clone, PartialEq, Eq)]
pub struct Converted {
    /// The new journal.
    pub journal: Vec<u8>,
    /// What was dropped of the old one, in its order: a stretch for each record that had leftovers.
    pub dropped: Vec<Dropped>,
}

/// Leftovers of a record that were dropped.
#[derive(Debug, Clone, Copy, PartialEq, Eq)]
pub struct Dropped {
    /// The place of the first of them in the old journal.
    pub place: usize,
    /// How many bytes they are.
    pub count: usize,
}

impl Dropped {
    /// The stretches in a list that a conversion wrote, in their order.
    pub fn all(list: &[u8]) -> impl Iterator<Item = Dropped> {
        let number = |bytes: &[u8; 8]| size(u64::from_le_bytes(*bytes));
        let pair = move |[place, count]: &[_; 2]| Dropped { place: number(place), count: number(count) };
        list.as_chunks::<8>().0.as_chunks::<2>().0.iter().map(pair)
    }
}

// The shortest record with leftovers: hash, length, id, the two numbers of items, and a byte.
const SHORTEST: usize = 57;

/// Rewrites a journal of the time when bytes after a payload's last item were passed over, for the rule that refuses them with
/// [`Refusal::Leftover`]: each record without such leftovers, with its length and its hash set anew. A record that has none comes out as it was. From the
/// first record on that is refused with one of the numbers 16 to 19, all bytes are copied unchanged: a cut stays a cut, and damage stays damage.
///
/// Reading the new journal gives what reading the old one gave then. Converting it again changes nothing.
///
/// It is always done in [`Mode::Unkeyed`]: records under a key are refused there with [`Refusal::Mismatch`], so a journal of them comes out as it was.
///
/// ```
/// use selvaigo::{Dropped, Mode, NurseryDelta, Refusal, convert_journal, encode_record, hash, scan_journal};
///
/// let record = encode_record(&Mode::Unkeyed, 7, &NurseryDelta::default())?;
/// // The same, with two bytes left over in its payload.
/// let stated = [&18_u64.to_le_bytes(), &record.bytes()[40..], &[8, 9]].concat();
/// let old = [&hash(&stated)[..], &stated].concat();
///
/// let journal = [record.bytes(), &old].concat();
/// assert_eq!(scan_journal(&Mode::Unkeyed, &journal).refusal, Some(Refusal::Leftover));
/// let converted = convert_journal(&journal);
/// assert_eq!(converted.journal, [record.bytes(), record.bytes()].concat());
/// assert_eq!(converted.dropped, [Dropped { place: 112, count: 2 }]);
/// # Ok::<(), Refusal>(())
/// ```
///
/// The example `convert_journal` does so with a file.
pub fn convert_journal(journal: &[u8]) -> Converted {
    let mut new = vec![0; journal.len()];
    let mut list = vec![0; journal.len() / SHORTEST * 16];
    let [len, listed] = raw::convert_journal(journal, &mut new, &mut list).expect("outputs for all that it may be");
    new.truncate(len);
    Converted { journal: new, dropped: Dropped::all(&list[..listed]).collect() }
}
