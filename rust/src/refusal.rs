//! Why a call was refused.

use core::error::Error;
use core::fmt;

/// Annex 7.2, table 1: why a call was refused, the first reason of its call's order that applies.
///
/// A refused call changes nothing: planner and buffer are as they were, byte for byte (Annex 7.3,
/// 7.31 and 10.5).
#[derive(Clone, Copy, Debug, PartialEq, Eq, Hash)]
#[non_exhaustive]
#[repr(u32)]
pub enum Refusal {
    /// Annex 7.6: `slots`, B, is not 1 to 64, or is 1 with messages on.
    BadSlots = 1,
    /// Annex 7.6: `frame`, F, is not 1 to 5,040.
    BadFrame = 2,
    /// Annex 7.6: `gap`, G, is not 1 to 255.
    BadGap = 3,
    /// Annex 7.6: `last`, T, is above 1,000,000,000.
    BadLast = 4,
    /// Annex 7.11, 7.22, 7.25, 7.42 and 14.12: the planner is not sound. It came from bytes or
    /// fields (`from_bytes`, `from_raw`), and these were damaged or no planner's.
    NotSound = 5,
    /// Annex 7.12: the id is not 1 to 32,767.
    BadId = 6,
    /// Annex 7.13: a record has the id.
    IdTaken = 7,
    /// Annex 7.14: the table has 64 records.
    Full = 8,
    /// Annex 7.15: `period`, P, is not 1 to 240, or does not divide `frame`.
    BadPeriod = 9,
    /// Annex 7.16: `deadline`, D, is not 1 to `period`.
    BadDeadline = 10,
    /// Annex 7.17: `release`, S, is not now to now + 239.
    BadRelease = 11,
    /// Annex 7.18: the table with it breaks the demand rule.
    BreaksDemand = 12,
    /// Annex 7.19: the table with it breaks the start rule.
    BreaksStart = 13,
    /// Annex 7.22: no record has the id.
    NoStream = 14,
    /// Annex 7.26: the buffer has fewer than `slots` elements.
    ShortBuffer = 16,
    /// Annex 7.27: the lazy start is after 1,000,000,000.
    LateStart = 17,
    /// Annex 9.2: a period of the list is not 1 to 240.
    BadPeriodOfList = 18,
    /// Annex 9.3: the least common multiple is above 5,040.
    LongFrame = 19,
    /// Annex 10.6: the length is under 6, or other than 6 + 2×n.
    WrongLength = 26,
    /// Annex 10.4, 10.6: the values are not good.
    BadValues = 27,
    /// Annex 10.4: the buffer is shorter than the packet.
    ShortPacketBuffer = 28,
    /// Annex 7.43: the number is not 32,768 to 65,535, or messages are off.
    BadMessage = 29,
    /// Annex 7.44: 32 messages are waiting.
    WaitingFull = 30,
    /// Annex 7.40, 10.10: the library is of another version than this crate, and nothing else was
    /// asked of it; or it gave a number that no call of this version gives. No answer of the annex.
    OtherVersion = u32::MAX,
}

use Refusal::*;

/// Those with a number of the annex, each with that number and the words of its table 1.
const TABLE_1: [(Refusal, &str); 23] = [
    (BadSlots, "1: B, the slots, is not 1 to 64, or is 1 with messages on"),
    (BadFrame, "2: F, the superframe, is not 1 to 5,040"),
    (BadGap, "3: G, the gap, is not 1 to 255"),
    (BadLast, "4: T, the last start, is above 1,000,000,000"),
    (NotSound, "5: the planner is not sound: not open, or damaged"),
    (BadId, "6: the id is not 1 to 32,767"),
    (IdTaken, "7: a record has the id"),
    (Full, "8: the table has 64 records"),
    (BadPeriod, "9: P, the period, is not 1 to 240, or does not divide F"),
    (BadDeadline, "10: D, the deadline, is not 1 to P"),
    (BadRelease, "11: S, the first release, is not now to now + 239"),
    (BreaksDemand, "12: the table with it breaks the demand rule"),
    (BreaksStart, "13: the table with it breaks the start rule"),
    (NoStream, "14: no record has the id"),
    (ShortBuffer, "16: the buffer has fewer than B elements"),
    (LateStart, "17: the lazy start is after 1,000,000,000"),
    (BadPeriodOfList, "18: a period of the list is not 1 to 240"),
    (LongFrame, "19: the least common multiple is above 5,040"),
    (WrongLength, "26: the length is under 6, or other than 6 + 2×n"),
    (BadValues, "27: the values are not good"),
    (ShortPacketBuffer, "28: the buffer is shorter than the packet"),
    (BadMessage, "29: the number is not 32,768 to 65,535, or messages are off"),
    (WaitingFull, "30: 32 messages are waiting"),
];

impl Refusal {
    /// Annex 7.2: its number in table 1, by which hosts are compared. That of
    /// [`Refusal::OtherVersion`] is 4,294,967,295, which no call gives.
    pub const fn number(self) -> u32 {
        self as u32
    }

    /// The refusal of a number that the calls of this crate give; none for 0, which is success.
    pub fn from_number(number: u32) -> Option<Refusal> {
        let known = TABLE_1.iter().find(|(refusal, _)| refusal.number() == number);
        known.map(|(refusal, _)| *refusal)
    }

    /// The number and the words of table 1.
    fn words(self) -> &'static str {
        let known = TABLE_1.iter().find(|(refusal, _)| *refusal == self);
        known.map_or("the library is of another version", |(_, words)| words)
    }
}

/// Annex 7.2: an answer of the library, 0 or the number of a refusal.
#[inline]
pub(crate) fn answered(answer: u32) -> Result<(), Refusal> {
    match answer {
        0 => Ok(()),
        number => Err(Refusal::from_number(number).unwrap_or(OtherVersion)),
    }
}

/// The number and the words of table 1, as in `3: G, the gap, is not 1 to 255`; of
/// [`Refusal::OtherVersion`], which is not in it, words alone.
impl fmt::Display for Refusal {
    fn fmt(&self, f: &mut fmt::Formatter<'_>) -> fmt::Result {
        f.pad(self.words())
    }
}

impl Error for Refusal {}
