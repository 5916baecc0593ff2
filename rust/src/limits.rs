//! The limits, named as the macros of `planner.h`. Those that are lengths of arrays are `usize`,
//! those that only numbers of a call are compared with `u32`.

use crate::raw;

/// Annex 3.6: the most slots of a round, B, and so the most ids and messages: a buffer of this
/// length is never too short.
pub const MOST_SLOTS: usize = 64;

/// Annex 3.6: the longest superframe, F; also the largest value of
/// [`superframe`](crate::superframe()) (Annex 9.3).
pub const LONGEST_FRAME: u32 = 5_040;

/// Annex 3.6: the longest gap, G.
pub const LONGEST_GAP: u32 = 255;

/// Annex 3.6: the most streams of a planner.
pub const PLACES: usize = raw::PLACES;

/// Annex 3.7: the largest id of a stream; the smallest is 1.
pub const LARGEST_ID: u32 = 32_767;

/// Annex 3.7: the longest period, P.
pub const LONGEST_PERIOD: u32 = 240;

/// Annex 3.8: so far after now, which is last + 1, a stream's first packet may be released.
pub const FURTHEST_RELEASE: u32 = 239;

/// Annex 3.14: the least number of a message, the first above the ids of streams.
pub const LEAST_MESSAGE: u32 = 32_768;

/// Annex 3.14: the largest number of a message.
pub const LARGEST_MESSAGE: u32 = 65_535;

/// Annex 3.15: the most messages that wait.
pub const MOST_WAITING: usize = raw::MOST_WAITING;

/// Annex 1.3: the last start: no round starts later.
pub const LAST_START: u32 = 1_000_000_000;
