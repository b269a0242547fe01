//! A box: counters and a nursery.
use std::error::Error;
use std::fmt;

use crate::format::encoded;
use crate::{
    CellNursery, Counters, DamagedRecord, JournalEnd, JournalError, Mode, NextIdx, NurseryDelta, Refusal, Settings, read_journal,
};

/// How much a box's tables have room for. It takes 16 bytes a count and 104 an entry, beside the cells.
#[derive(Debug, Clone, Copy, PartialEq, Eq)]
pub struct Room {
    /// Counts above 1.
    pub counts: usize,
    /// Entries of the nursery.
    pub entries: usize,
    /// Bytes of their cells.
    pub cell_bytes: usize,
}

/// A box, which owns its tables. Its two halves share nothing, and each guards its own.
#[derive(Debug, Clone)]
pub struct NodeBox {
    /// Counts of references.
    pub counters: Counters,
    /// Young cells.
    pub nursery: CellNursery,
    /// How its records are hashed: what it was made or read in with. Its journal is read with the same.
    pub mode: Mode,
}

/// A box that was read in.
#[derive(Debug, Clone)]
pub struct Restored {
    /// The box. Its entries all wait for promotion.
    pub node_box: NodeBox,
    /// Where the reading of its journal ended.
    pub journal: JournalEnd,
}

/// Why a box couldn't be read in.
#[derive(Debug, Clone, Copy, PartialEq, Eq)]
pub enum RestoreError {
    /// One of its settings is outside its range: [`Refusal::BadSetting`]. It isn't the key, as a [`Mode`] has none that is refused. Of snapshot and journal nothing is
    /// known.
    Setting(Refusal),
    /// What its snapshot is refused with.
    Snapshot(Refusal),
    /// The record for which its journal is refused; or its first one, where the journal is of another key, as [`DamagedRecord`] says.
    Journal(DamagedRecord),
}

impl RestoreError {
    /// The number that the settings, or the reading of the snapshot or of the journal, are refused with.
    pub const fn number(&self) -> u8 {
        match self {
            Self::Setting(refusal) | Self::Snapshot(refusal) => refusal.number(),
            Self::Journal(damaged) => damaged.number(),
        }
    }
}

// Of settings, or of a snapshot that is read with settings.
impl From<Refusal> for RestoreError {
    fn from(refusal: Refusal) -> Self {
        match refusal {
            Refusal::BadSetting => Self::Setting(refusal),
            _ => Self::Snapshot(refusal),
        }
    }
}

impl From<JournalError> for RestoreError {
    fn from(error: JournalError) -> Self {
        match error {
            JournalError::Setting(refusal) => Self::Setting(refusal),
            JournalError::Damaged(damaged) => Self::Journal(damaged),
        }
    }
}

impl From<DamagedRecord> for RestoreError {
    fn from(damaged: DamagedRecord) -> Self {
        Self::Journal(damaged)
    }
}

// What is wrong with it is said by the source.
impl fmt::Display for RestoreError {
    fn fmt(&self, f: &mut fmt::Formatter<'_>) -> fmt::Result {
        match self {
            Self::Setting(_) => write!(f, "settings refused with {}", self.number()),
            Self::Snapshot(_) => write!(f, "snapshot refused with {}", self.number()),
            Self::Journal(damaged) => write!(f, "journal refused with {} at byte {}", self.number(), damaged.place),
        }
    }
}

impl Error for RestoreError {
    fn source(&self) -> Option<&(dyn Error + 'static)> {
        match self {
            Self::Setting(refusal) | Self::Snapshot(refusal) => Some(refusal),
            Self::Journal(damaged) => Some(damaged),
        }
    }
}

impl NodeBox {
    /// A fresh box: the next index as handed over, the rest empty. Only [`Refusal::BadSetting`] refuses it, for one of its settings, and then nothing is made.
    ///
    /// # Panics
    ///
    /// Where the room is more than slices can have.
    pub fn new(next_idx: NextIdx, room: Room, settings: Settings, mode: Mode) -> Result<Self, Refusal> {
        // All four are judged before either half is made.
        settings.check()?;
        let counters = Counters::new(next_idx, room.counts, settings.shrink())?;
        let nursery = CellNursery::new(room.entries, room.cell_bytes, settings.delay)?;
        Ok(Self { counters, nursery, mode })
    }

    /// A new box with the counters of a snapshot and the nursery of a journal, and with settings and a mode, of which these have none: to go on with a box they are
    /// that box's. A setting outside its range is refused before either is looked at. A snapshot may be refused, and a journal with a damaged record or of another
    /// key; else the journal is read up to its end, the first record that is cut, or the first delta that is refused: [`Restored::journal`] says which. A
    /// snapshot that is refused with [`Refusal::FewCells`] is to be loaded once by [`Counters::load_snapshot`] and serialized again.
    ///
    /// # Panics
    ///
    /// Where the room is more than slices can have.
    pub fn restore(
        snapshot: &[u8],
        journal: &[u8],
        room: Room,
        settings: Settings,
        mode: Mode,
    ) -> Result<Restored, RestoreError> {
        // All four are judged before either half is read.
        settings.check()?;
        let counters = Counters::deserialize_trusted(snapshot, room.counts, settings.shrink())?;
        let (nursery, journal) = read_journal(&mode, journal, room.entries, room.cell_bytes, settings.delay)?;
        Ok(Restored { node_box: Self { counters, nursery, mode }, journal })
    }

    /// The settings of its two halves.
    pub fn settings(&self) -> Settings {
        Settings::of(self.nursery.delay(), self.counters.settings())
    }

    /// A delta, and its record, hashed in the box's mode, at the end of its journal: where it is taken and has an insert or a remove. A refusal changes neither.
    pub fn commit(&mut self, id: u64, delta: &NurseryDelta, journal: &mut Vec<u8>) -> Result<(), Refusal> {
        let items = delta.to_items()?;
        let record = encoded(&self.mode, id, &items)?;
        self.nursery.apply_items(&items)?;
        if !delta.is_empty() {
            journal.extend_from_slice(record.bytes());
        }
        Ok(())
    }
}
