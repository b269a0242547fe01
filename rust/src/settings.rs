//! The settings of a box.
use crate::{NextIdx, Refusal, raw, sys};

/// What a box is made or read in with. No call changes them afterwards, and neither a snapshot nor a journal has them: whoever reads a box in gives them anew.
///
/// The standard ones are the default.
///
/// ```
/// use selvaigo::{Mode, NextIdx, NodeBox, Refusal, Room, Settings};
///
/// let room = Room { counts: 1_024, entries: 256, cell_bytes: 16_384 };
/// let slow = Settings { delay: 2_500, ..Settings::default() };
/// assert_eq!(NodeBox::new(NextIdx::new(0), room, slow, Mode::Unkeyed)?.settings(), slow);
///
/// let never = Settings { delay: 10_001, ..slow };
/// assert_eq!(NodeBox::new(NextIdx::new(0), room, never, Mode::Unkeyed).unwrap_err(), Refusal::BadSetting);
/// # Ok::<(), Refusal>(())
/// ```
#[derive(Debug, Clone, Copy, PartialEq, Eq)]
pub struct Settings {
    /// How many rounds a cell waits for its promotion: 1 to 10,000.
    pub delay: u64,
    /// The alive threshold at the start and after a good save: 1 to the maximum.
    pub shrink_base: u64,
    /// The most that the alive threshold is doubled to: any.
    pub shrink_max: u64,
    /// The least bytes saved that are a good save: any.
    pub good_save: u64,
}

/// Those of the settings that counters are made or read in with: they say how the alive threshold of maintenance follows the bytes that shrinking saves.
///
/// The standard ones are the default.
#[derive(Debug, Clone, Copy, PartialEq, Eq)]
pub struct ShrinkSettings {
    /// The alive threshold at the start and after a good save: 1 to the maximum.
    pub base: u64,
    /// The most that it is doubled to: any.
    pub max: u64,
    /// The least bytes saved that are a good save: any.
    pub good_save: u64,
}

impl Settings {
    /// A delay of 100 rounds, a base of 131,072, a maximum of 2,097,152, and a good save of 1,048,576 bytes.
    pub const STANDARD: Self = Self::of(sys::STANDARD_DELAY, ShrinkSettings::STANDARD);

    pub(crate) const fn of(delay: u64, shrink: ShrinkSettings) -> Self {
        Self { delay, shrink_base: shrink.base, shrink_max: shrink.max, good_save: shrink.good_save }
    }

    /// Those of the counters.
    pub const fn shrink(&self) -> ShrinkSettings {
        ShrinkSettings { base: self.shrink_base, max: self.shrink_max, good_save: self.good_save }
    }

    /// Refused with [`Refusal::BadSetting`] where one of them is outside its range.
    pub fn check(&self) -> Result<(), Refusal> {
        self.shrink().check()?;
        check_delay(self.delay)
    }
}

impl ShrinkSettings {
    /// Those of [`Settings::STANDARD`].
    pub const STANDARD: Self =
        Self { base: sys::STANDARD_SHRINK_BASE, max: sys::STANDARD_SHRINK_MAX, good_save: sys::STANDARD_GOOD_SAVE };

    /// Refused with [`Refusal::BadSetting`] where one of them is outside its range.
    pub fn check(&self) -> Result<(), Refusal> {
        // The port's own judgement, over no table.
        raw::new(NextIdx::new(0), *self, &mut [0; sys::STATE], &mut [])
    }
}

// Refused with 23 where a delay is outside its range.
pub(crate) fn check_delay(delay: u64) -> Result<(), Refusal> {
    raw::nursery_new(delay, &mut [0; sys::NURSERY], &mut [], &mut [], &mut [])
}

impl Default for Settings {
    fn default() -> Self {
        Self::STANDARD
    }
}

impl Default for ShrinkSettings {
    fn default() -> Self {
        Self::STANDARD
    }
}

impl From<Settings> for ShrinkSettings {
    fn from(settings: Settings) -> Self {
        settings.shrink()
    }
}
