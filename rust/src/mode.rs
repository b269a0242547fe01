//! How the records of a box are hashed.
use std::fmt;

/// How records are hashed: without a key, or under one, so that boxes with that key take up each other's journals and no others.
///
/// A box is made or read in with its mode, and no call changes it. Neither a snapshot nor a journal has mode or key: whoever reads a box in gives them anew. A
/// whole record is refused with [`Refusal::Mismatch`](crate::Refusal::Mismatch) exactly when its hash isn't the one in the mode and under the key given.
///
/// A key has 32 bytes: one of another length can't be stated. They are to be random; a password is no key, even one of 32 bytes. A key hides nothing of a record.
///
/// ```
/// use selvaigo::{HashBytes, Mode, NextIdx, NodeBox, NurseryDelta, Refusal, RestoreError, Room, Settings};
///
/// # fn random_bytes() -> [u8; 32] { std::array::from_fn(|i| i as u8) }
/// let (room, settings) = (Room { counts: 1_024, entries: 256, cell_bytes: 16_384 }, Settings::default());
/// let fleet = Mode::Keyed(random_bytes());
/// let (mut node, mut journal) = (NodeBox::new(NextIdx::new(0), room, settings, fleet.clone())?, Vec::new());
/// node.commit(1, &NurseryDelta { inserts: vec![], removes: vec![HashBytes([7; 32])] }, &mut journal)?;
///
/// let snapshot = node.counters.serialize();
/// assert_eq!(NodeBox::restore(&snapshot, &journal, room, settings, fleet)?.journal.applied, 1);
/// let other = NodeBox::restore(&snapshot, &journal, room, settings, Mode::Unkeyed).unwrap_err();
/// assert!(matches!(other, RestoreError::Journal(record) if record.place == 0 && record.refusal == Refusal::Mismatch));
/// # Ok::<(), Box<dyn std::error::Error>>(())
/// ```
// Not `Copy`: a key is copied where `clone` says so, and nowhere else.
#[derive(Clone, PartialEq, Eq, Default)]
pub enum Mode {
    /// BLAKE3's hash mode.
    #[default]
    Unkeyed,
    /// BLAKE3's keyed mode, under this key.
    Keyed([u8; 32]),
}

impl Mode {
    /// The key, if there is one: what the calls of [`raw`](crate::raw) take.
    pub fn key(&self) -> Option<&[u8]> {
        match self {
            Self::Unkeyed => None,
            Self::Keyed(key) => Some(key),
        }
    }
}

// No byte of a key: what is printed may be kept where a key mustn't be.
impl fmt::Debug for Mode {
    fn fmt(&self, f: &mut fmt::Formatter<'_>) -> fmt::Result {
        f.write_str(match self {
            Self::Unkeyed => "Unkeyed",
            Self::Keyed(_) => "Keyed(..)",
        })
    }
}
