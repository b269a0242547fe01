//! Refusals, with their numbers and words.
use std::error::Error;
use std::fmt;

macro_rules! refusals {
    ($($(#[$doc:meta])* $name:ident = $number:literal, $word:literal;)*) => {
        /// Why a call was refused. A refused call has changed nothing.
        #[derive(Debug, Clone, Copy, PartialEq, Eq, Hash, PartialOrd, Ord)]
        #[repr(u8)]
        pub enum Refusal {
            $($(#[$doc])* $name = $number,)*
        }

        impl Refusal {
            /// All of them, by number.
            pub const ALL: [Refusal; 24] = [$(Refusal::$name),*];

            /// The refusal of that number; none has 0, which is no refusal, or 24, or a number above 25.
            pub const fn from_number(number: u8) -> Option<Refusal> {
                match number {
                    $($number => Some(Refusal::$name),)*
                    _ => None,
                }
            }

            /// Its word, as `Display` writes it.
            pub const fn word(self) -> &'static str {
                match self {
                    $(Refusal::$name => $word,)*
                }
            }
        }
    };
}

refusals! {
    /// An allocation with the next index 2^64 - 1.
    Spent = 1, "spent";
    /// An index at or above the next one is read or changed.
    Unallocated = 2, "unallocated";
    /// Two kept transitions of a batch name one index.
    Repeated = 3, "repeated";
    /// The live total and the births exceed 2^64 - 1, or the deaths exceed both.
    OffTotal = 4, "off total";
    /// An old count isn't the stored one; with none stored, it isn't 0 or 1.
    FalseOld = 5, "false old";
    /// The stored counts after the call exceed the table.
    TableFull = 6, "table full";
    /// The first byte of a snapshot isn't 1.
    Version = 7, "version";
    /// A snapshot is empty, or ends before its eighth bitmap does.
    TornSnapshot = 8, "torn snapshot";
    /// A bitmap of a snapshot breaks the format.
    BadBitmap = 9, "bad bitmap";
    /// The rest of a snapshot isn't a multiple of 16, or a large count is below 257.
    BadLarge = 10, "bad large";
    /// An index is in both tiers of a snapshot, or not below its next index.
    TierClash = 11, "tier clash";
    /// An inserted hash is in the nursery, or inserted earlier in the delta.
    Present = 12, "present";
    /// The entries or cell bytes after the inserts, before the removes, exceed the tables.
    NurseryFull = 13, "nursery full";
    /// A cell has over 65,535 bytes, or a list over 2^32 - 1 items.
    TooLong = 14, "too long";
    /// The lent output is shorter than the answer.
    OutputFull = 15, "output full";
    /// A record has under 40 bytes, or fewer than 40 and its stated length.
    ShortRecord = 16, "short record";
    /// A stated length is at or above 2^64 - 8.
    FarLength = 17, "far length";
    /// The hash of a record isn't the one in the mode and under the key given.
    Mismatch = 18, "mismatch";
    /// A stated length is under 16, or the items run past it.
    Misfit = 19, "misfit";
    /// What is lent isn't in the layout of docs/LAYOUT.md.
    Broken = 20, "broken";
    /// A record of a journal is refused with another number than 16.
    Damaged = 21, "damaged";
    /// Bytes of a record's payload are left over after its last item. It comes after the refusals 16 to 19.
    Leftover = 22, "leftover";
    /// A setting is outside its range, where a box is made or read in; of a record that is lent it is [`Refusal::Broken`]. Or a key isn't of 32 bytes, which only the
    /// calls of [`raw`](crate::raw) can be given. It comes before all others.
    BadSetting = 23, "bad setting";
    /// Fewer cells than counts: the stored counts after the call exceed the live total. It comes last, of a batch and of a snapshot.
    FewCells = 25, "few cells";
}

impl Refusal {
    /// Its number.
    pub const fn number(self) -> u8 {
        self as u8
    }

    // What an answer means. The port gives no other number: another library was linked.
    pub(crate) fn of(answer: u8) -> Result<(), Refusal> {
        match answer {
            0 => Ok(()),
            _ => Err(Refusal::from_number(answer).unwrap_or_else(|| panic!("{answer} is no answer of the port's"))),
        }
    }

    // What ended a journal, which is given as a word beside the answer.
    pub(crate) fn ended(word: u64) -> Option<Refusal> {
        Refusal::of(word.try_into().expect("the number of an answer")).err()
    }
}

impl fmt::Display for Refusal {
    fn fmt(&self, f: &mut fmt::Formatter<'_>) -> fmt::Result {
        f.write_str(self.word())
    }
}

impl Error for Refusal {}
