//! The counters of a box.
use std::fmt;

use crate::{Refusal, ShrinkSettings, raw, size, sys, taken, words};

/// The index of a cell.
#[derive(Debug, Clone, Copy, PartialEq, Eq, Hash, PartialOrd, Ord)]
#[repr(transparent)]
pub struct Idx(u64);

/// The next index that is to be handed out.
#[derive(Debug, Clone, Copy, PartialEq, Eq, Hash, PartialOrd, Ord)]
#[repr(transparent)]
pub struct NextIdx(u64);

/// How many references a cell has.
#[derive(Debug, Clone, Copy, PartialEq, Eq, Hash, PartialOrd, Ord)]
#[repr(transparent)]
pub struct RefCount(u64);

macro_rules! number {
    ($name:ident) => {
        impl $name {
            /// The number as what it stands for.
            pub const fn new(value: u64) -> Self {
                Self(value)
            }

            /// The number.
            pub const fn get(self) -> u64 {
                self.0
            }
        }
    };
}

number!(Idx);
number!(NextIdx);
number!(RefCount);

impl RefCount {
    /// What an allocated index with nothing stored reads.
    pub const ONE: Self = Self(1);

    /// The least count of the large tier.
    pub const BIG_MIN: Self = Self(257);
}

/// A count that changes: what it is before the batch, and after it. 0 is no reference: a birth comes from it, a death goes to it.
#[derive(Debug, Clone, Copy, PartialEq, Eq, Hash)]
#[repr(C)]
pub struct CounterTransition {
    /// Whose count.
    pub idx: Idx,
    /// The count before.
    pub old_raw: u64,
    /// The count after.
    pub new_raw: u64,
}

/// Figures on removals since the sets were shrunk.
#[derive(Debug, Clone, Copy, PartialEq, Eq)]
pub struct CounterMaintenance {
    /// Counts that fell to one or none.
    pub alive_removed_since_shrink: u64,
    /// Bits cleared in each of the eight sets, bit 0 first.
    pub small_removed_since_shrink: [u64; 8],
    /// The least alive removals that call for shrinking.
    pub min_alive_removed_before_shrink: u64,
}

/// Which sets are to be shrunk.
#[derive(Debug, Clone, Copy, PartialEq, Eq)]
pub struct Shrunk {
    /// The set of all stored indices.
    pub alive: bool,
    /// The eight sets of small counts, bit 0 first.
    pub small: [bool; 8],
}

impl Shrunk {
    pub(crate) fn of(words: [u64; 9]) -> Self {
        Self { alive: words[0] != 0, small: std::array::from_fn(|bit| words[bit + 1] != 0) }
    }
}

/// Whether so many removals call for shrinking a set.
pub fn should_shrink(alive: u64, removed_since_shrink: u64, min_removed: u64) -> bool {
    // SAFETY: numbers only.
    unsafe { sys::selvaigo_should_shrink(alive, removed_since_shrink, min_removed) != 0 }
}

/// The alive threshold after a shrinking that saved so many bytes: the base after a good save, else twice as much, or the maximum if that is less. The
/// settings may be any.
pub fn adjust_shrink_threshold(min_alive_removed_before_shrink: u64, bytes_saved: u64, settings: ShrinkSettings) -> u64 {
    let ShrinkSettings { base, max, good_save } = settings;
    // SAFETY: numbers only.
    unsafe { sys::selvaigo_adjust_shrink_threshold(min_alive_removed_before_shrink, bytes_saved, base, max, good_save) }
}

/// Counts of references, by index, in a table that they own. Nothing but the port writes it, so no call checks it. There are never more stored
/// counts than the live total says: see [`Refusal::FewCells`].
#[derive(Clone)]
pub struct Counters {
    state: [u64; sys::STATE],
    counts: Box<[u64]>,
}

// SAFETY, of every held call below: record and table are those that the port's calls have written, or that `from_parts` has seen to hold a
// state; no method lends them to be written. Pointers and lengths are those of slices and arrays borrowed for the call.
impl Counters {
    /// Counters with nothing stored, with room for so many counts above 1. Only [`Refusal::BadSetting`] refuses it.
    ///
    /// # Panics
    ///
    /// Where the room is more than a slice can have.
    pub fn new(next_idx: NextIdx, room: usize, settings: ShrinkSettings) -> Result<Self, Refusal> {
        let mut counters = Self::unread(room, settings)?;
        let Self { state, counts } = &mut counters;
        raw::new(next_idx, settings, state, counts)?;
        Ok(counters)
    }

    /// The counters that a snapshot holds, with room for so many counts above 1, and with settings, of which it has none. The first of the refusals,
    /// whatever the snapshot is, is [`Refusal::BadSetting`]. The last is [`Refusal::FewCells`]: the snapshot has more counts than its live total.
    /// [`Counters::load_snapshot`] takes such a one.
    ///
    /// # Panics
    ///
    /// Where the room is more than a slice can have.
    pub fn deserialize_trusted(snapshot: &[u8], room: usize, settings: ShrinkSettings) -> Result<Self, Refusal> {
        let mut counters = Self::unread(room, settings)?;
        let Self { state, counts } = &mut counters;
        raw::deserialize_trusted(snapshot, settings, state, counts)?;
        Ok(counters)
    }

    /// The counters of a snapshot from the time when counts were not held against the live total, with room for so many counts above 1: a live
    /// total below the number of counts is raised to it, and all else is read as by [`Counters::deserialize_trusted`], with the same refusals but
    /// [`Refusal::FewCells`]. A snapshot with a total that is enough keeps it.
    ///
    /// It is for loading such a snapshot once: what is serialized then is read as any other.
    ///
    /// ```
    /// use selvaigo::{Counters, Mode, NodeBox, Refusal, Room, Settings};
    ///
    /// # use selvaigo::{CounterTransition, Idx, NextIdx};
    /// # let mut counters = Counters::new(NextIdx::new(2), 8, Settings::STANDARD.shrink())?;
    /// # counters.apply_batch(&[CounterTransition { idx: Idx::new(0), old_raw: 0, new_raw: 5 }])?;
    /// # let mut old = counters.serialize();
    /// # old[9..17].fill(0);
    /// # let journal = [];
    /// // `old` has a count, and the live total 0.
    /// let (room, settings) = (Room { counts: 1_024, entries: 256, cell_bytes: 16_384 }, Settings::default());
    /// let refused = Counters::deserialize_trusted(&old, room.counts, settings.shrink()).unwrap_err();
    /// assert_eq!(refused, Refusal::FewCells);
    ///
    /// let loaded = Counters::load_snapshot(&old, room.counts, settings.shrink())?;
    /// assert_eq!((loaded.old_total, loaded.counters.live_cells()), (0, 1));
    /// let new = loaded.counters.serialize();
    ///
    /// // From here on `new` stands for `old`.
    /// let restored = NodeBox::restore(&new, &journal, room, settings, Mode::Unkeyed)?;
    /// assert_eq!(restored.node_box.counters.live_cells(), 1);
    /// # Ok::<(), Box<dyn std::error::Error>>(())
    /// ```
    ///
    /// # Panics
    ///
    /// Where the room is more than a slice can have.
    pub fn load_snapshot(snapshot: &[u8], room: usize, settings: ShrinkSettings) -> Result<Loaded, Refusal> {
        let mut counters = Self::unread(room, settings)?;
        let Self { state, counts } = &mut counters;
        let old_total = raw::load_snapshot(snapshot, settings, state, counts)?;
        Ok(Loaded { counters, old_total })
    }

    // A record and a table for a call that writes both. Settings that it would refuse are refused before anything is asked for.
    fn unread(room: usize, settings: ShrinkSettings) -> Result<Self, Refusal> {
        settings.check()?;
        Ok(Self { state: [0; sys::STATE], counts: vec![0; words(room, 2)].into() })
    }

    /// The counters of a record and a table of docs/LAYOUT.md, where these hold a state; else they are refused with [`Refusal::Broken`]. Their settings are
    /// the record's.
    pub fn from_parts(state: [u64; sys::STATE], counts: Box<[u64]>) -> Result<Self, Refusal> {
        let mut counters = Self { state, counts };
        let Self { state, counts } = &mut counters;
        // An empty batch is taken by every state and changes none.
        raw::apply_batch(state, counts, &[])?;
        Ok(counters)
    }

    /// Record and table, for the caller to own.
    pub fn into_parts(self) -> ([u64; sys::STATE], Box<[u64]>) {
        (self.state, self.counts)
    }

    /// The record, word by word.
    pub fn state(&self) -> &[u64; sys::STATE] {
        &self.state
    }

    /// The table, word by word.
    pub fn counts(&self) -> &[u64] {
        &self.counts
    }

    /// The next index that is to be handed out.
    pub fn next_idx(&self) -> NextIdx {
        NextIdx(self.state[0])
    }

    /// The live total. It is at least [`Counters::stored`].
    pub fn live_cells(&self) -> u64 {
        self.state[1]
    }

    /// How many counts above 1 are stored.
    pub fn stored(&self) -> usize {
        size(self.state[2])
    }

    /// How many there is room for.
    pub fn room(&self) -> usize {
        self.counts.len() / 2
    }

    /// The settings that they were made or read in with.
    pub fn settings(&self) -> ShrinkSettings {
        ShrinkSettings { base: self.state[13], max: self.state[14], good_save: self.state[15] }
    }

    /// The figures on removals.
    pub fn maintenance(&self) -> CounterMaintenance {
        CounterMaintenance {
            alive_removed_since_shrink: self.state[3],
            small_removed_since_shrink: std::array::from_fn(|bit| self.state[4 + bit]),
            min_alive_removed_before_shrink: self.state[12],
        }
    }

    /// The stored counts, by ascending index.
    pub fn iter(&self) -> impl Iterator<Item = (Idx, RefCount)> + '_ {
        self.counts.chunks_exact(2).take(self.stored()).map(|row| (Idx(row[0]), RefCount(row[1])))
    }

    /// The next index, handed out.
    pub fn alloc_idx(&mut self) -> Result<Idx, Refusal> {
        raw::alloc_idx(&mut self.state)
    }

    /// The count at an index that was handed out.
    pub fn get(&self, idx: Idx) -> Result<RefCount, Refusal> {
        let mut count = [0];
        // SAFETY: held, see above.
        Refusal::of(unsafe { sys::selvaigo_get_held(&self.state, self.counts.as_ptr(), self.counts.len(), idx.0, &mut count) })?;
        Ok(RefCount(count[0]))
    }

    /// A batch that is gathered one transition after another.
    pub fn begin(&mut self) -> CounterBatch<'_> {
        CounterBatch { counters: self, transitions: Vec::new() }
    }

    /// A batch: all of it or nothing. After all other refusals comes [`Refusal::FewCells`]: the whole of it would leave more stored counts than the
    /// live total that it leaves. Right after it was accepted, its transitions with old and new exchanged, in any order, take it back:
    /// they are accepted, and the snapshot is the one from before.
    pub fn apply_batch(&mut self, batch: &[CounterTransition]) -> Result<(), Refusal> {
        // SAFETY: held, see above. A transition is three words with nothing between them, and there are as many as fit in memory.
        Refusal::of(unsafe {
            sys::selvaigo_apply_batch_held(
                &mut self.state,
                self.counts.as_mut_ptr(),
                self.counts.len(),
                batch.as_ptr().cast(),
                batch.len() * 3,
            )
        })
    }

    /// Maintenance: which sets are to be shrunk, where shrinking the set of all stored indices saves so many bytes. A yes sets its removals to 0; that for
    /// the set of all also sets the alive threshold anew, as [`adjust_shrink_threshold`] does by [`Counters::settings`].
    pub fn shrink_if_needed(&mut self, bytes_saved: u64) -> Shrunk {
        let mut shrunk = [0; 9];
        // SAFETY: held, see above.
        taken(unsafe {
            sys::selvaigo_shrink_if_needed_held(
                &mut self.state,
                self.counts.as_ptr(),
                self.counts.len(),
                bytes_saved,
                &mut shrunk,
            )
        });
        Shrunk::of(shrunk)
    }

    /// How many bytes the snapshot takes.
    pub fn serialized_len(&self) -> usize {
        let mut len = [0];
        // SAFETY: held, see above.
        taken(unsafe { sys::selvaigo_serialized_len_held(&self.state, self.counts.as_ptr(), self.counts.len(), &mut len) });
        size(len[0])
    }

    /// The snapshot.
    pub fn serialize(&self) -> Vec<u8> {
        let mut out = vec![0; self.serialized_len()];
        let len = self.serialize_into(&mut out).expect("an output of the stated length");
        debug_assert_eq!(len, out.len());
        out
    }

    /// The snapshot, into the front of `out`: its length. Only an output that is too short is refused.
    pub fn serialize_into(&self, out: &mut [u8]) -> Result<usize, Refusal> {
        let mut len = [0];
        // SAFETY: held, see above.
        Refusal::of(unsafe {
            sys::selvaigo_serialize_held(
                &self.state,
                self.counts.as_ptr(),
                self.counts.len(),
                out.as_mut_ptr(),
                out.len(),
                &mut len,
            )
        })?;
        Ok(size(len[0]))
    }
}

/// Counters that [`Counters::load_snapshot`] loaded.
#[derive(Debug, Clone)]
pub struct Loaded {
    /// The counters.
    pub counters: Counters,
    /// The live total that the snapshot has. It was raised where it is below [`Counters::live_cells`].
    pub old_total: u64,
}

impl fmt::Debug for Counters {
    fn fmt(&self, f: &mut fmt::Formatter<'_>) -> fmt::Result {
        f.debug_struct("Counters")
            .field("next_idx", &self.next_idx())
            .field("live_cells", &self.live_cells())
            .field("stored", &self.stored())
            .field("room", &self.room())
            .finish_non_exhaustive()
    }
}

/// A batch in the making. Dropped before [`CounterBatch::apply`] it changes nothing but what was allocated.
#[derive(Debug)]
pub struct CounterBatch<'a> {
    counters: &'a mut Counters,
    transitions: Vec<CounterTransition>,
}

impl CounterBatch<'_> {
    /// Makes room for so many more transitions.
    pub fn reserve(&mut self, additional: usize) {
        self.transitions.reserve(additional);
    }

    /// The next index, handed out at once.
    pub fn alloc_idx(&mut self) -> Result<Idx, Refusal> {
        self.counters.alloc_idx()
    }

    /// One more transition.
    pub fn update_raw(&mut self, idx: Idx, old_raw: u64, new_raw: u64) {
        self.transitions.push(CounterTransition { idx, old_raw, new_raw });
    }

    /// The batch: all of it or nothing.
    pub fn apply(self) -> Result<(), Refusal> {
        self.counters.apply_batch(&self.transitions)
    }
}
