//! The planner and its calls.

use crate::raw::{self, BYTES};
use crate::refusal::answered;
use crate::{check_version, Refusal, LARGEST_ID};
use core::fmt;

// for the links of the documentation
#[cfg(doc)]
use crate::limits::*;

/// Annex 7.5: what a planner is opened with. Any numbers may stand here; [`Planner::open`] tests
/// them.
#[derive(Clone, Copy, Debug, PartialEq, Eq, Hash)]
pub struct Setting {
    /// B, the slots of a round, 1 to 64 ([`MOST_SLOTS`]), and above 1 with messages on.
    pub slots: u32,
    /// F, the superframe, 1 to 5,040 ([`LONGEST_FRAME`]); every period has to divide it.
    pub frame: u32,
    /// G, the most units from the end of a round to the next start, 1 to 255 ([`LONGEST_GAP`]).
    pub gap: u32,
    /// T, the moment that is taken for the start of the last round, 0 to 1,000,000,000
    /// ([`LAST_START`]).
    pub last: u32,
    /// Whether messages are on: then a round keeps one slot for them, and the streams have the
    /// others (Annex 3.16).
    pub messages: bool,
}

/// Annex 2.1: a stream, as it is added and as a planner keeps it. Any numbers may stand here;
/// [`Planner::add`] tests them.
#[derive(Clone, Copy, Debug, PartialEq, Eq, Hash)]
pub struct Stream {
    /// The id, 1 to 32,767 ([`LARGEST_ID`]). It has 32 bits, where the ids of a round have 16:
    /// numbers are passed as 32 bits and compared as they are passed, so that 65,537 is refused and
    /// is not the id 1 (Annex 7.1).
    pub id: u32,
    /// The moment from which its first unserved packet may ride: of a stream that is added S, that
    /// of its first packet, now to now + 239 ([`FURTHEST_RELEASE`]).
    pub release: u32,
    /// P, the length from a release to the next, 1 to 240 ([`LONGEST_PERIOD`]), a divisor of the
    /// frame.
    pub period: u32,
    /// D, the length from a release to the due time, 1 to the period.
    pub deadline: u32,
}

/// Annex 7.28, 7.29: a round that was held.
#[derive(Clone, Copy, Debug, PartialEq, Eq)]
#[non_exhaustive]
pub struct Round<'a> {
    /// The round's start. It ends one unit later.
    pub start: u32,
    /// What stands in the slots, in their order, as much as there is: the ids of streams, then
    /// messages. It is the part of the buffer that the round filled, and what its packet lists.
    pub ids: &'a [u16],
}

impl<'a> Round<'a> {
    /// Annex 7.29: the ids of the streams that send, in the order of the slots.
    pub fn streams(&self) -> &'a [u16] {
        self.parts().0
    }

    /// Annex 7.46: the messages, in the order in which they were sent.
    pub fn messages(&self) -> &'a [u16] {
        self.parts().1
    }

    fn parts(&self) -> (&'a [u16], &'a [u16]) {
        self.ids.split_at(self.ids.partition_point(|id| u32::from(*id) <= LARGEST_ID))
    }
}

/// Annex 14.12: what a check says of a plan.
#[derive(Clone, Copy, Debug, PartialEq, Eq, Hash)]
pub enum Verdict {
    /// Annex 14.10: every round passes; none of bytes is such a plan too.
    Sound,
    /// Annex 14.11: the rounds before this one pass, and it breaks a rule.
    Breaks {
        /// The number of the round, counted from 1.
        round: u32,
    },
}

/// Annex 3.1: a planner, in the caller's memory: 3,936 bytes, and nothing on a heap.
///
/// There is no `==`: two planners of equal content may differ in bytes that no answer depends on
/// (Annex 3.13). Whether nothing at all has changed is a comparison of [`Planner::as_bytes`].
#[derive(Clone)]
pub struct Planner {
    raw: raw::Planner,
}

impl Planner {
    /// Annex 7.38: the bytes of a planner.
    pub const BYTES: usize = BYTES;

    /// Annex 7.5 to 7.9: a planner with this setting, no stream and nothing waiting.
    ///
    /// # Errors
    ///
    /// [`Refusal::OtherVersion`] ([`check_version`]); then 1 unless slots is 1 to 64, and above 1
    /// with messages on; 2 unless frame is 1 to 5,040; 3 unless gap is 1 to 255; 4 if last is above
    /// 1,000,000,000.
    pub fn open(setting: Setting) -> Result<Planner, Refusal> {
        check_version()?;
        let Setting { slots, frame, gap, last, messages } = setting;
        let mut raw = raw::Planner::ZEROS;
        // SAFETY: Annex 7.39: a planner of our own, written before it is lent, to open too, which
        // nobody else reads or writes.
        answered(unsafe {
            raw::planner_open(&mut raw, slots, frame, gap, last, u32::from(messages))
        })?;
        Ok(Planner { raw })
    }

    /// Annex 7.10 to 7.20: adds a stream.
    ///
    /// # Errors
    ///
    /// The first that applies: 5 if the planner is not sound; 6 unless the id is 1 to 32,767; 7 if
    /// a stream has it; 8 with 64 streams ([`PLACES`]); 9 unless the period is 1 to 240 and divides
    /// the frame; 10 unless the deadline is 1 to the period; 11 unless the release is now to now +
    /// 239; 12 if the table with it breaks the demand rule; 13 if it breaks the start rule.
    #[inline]
    pub fn add(&mut self, stream: Stream) -> Result<(), Refusal> {
        let Stream { id, release, period, deadline } = stream;
        // SAFETY: Annex 7.39: a planner whose every byte has a value, exclusively borrowed.
        answered(unsafe { raw::planner_add(&mut self.raw, id, release, period, deadline) })
    }

    /// Annex 7.22, 7.23: takes a stream out, and its unserved packet with it.
    ///
    /// # Errors
    ///
    /// 5 if the planner is not sound; then 14 if no stream has the id, whatever number it is.
    #[inline]
    pub fn remove(&mut self, id: u32) -> Result<(), Refusal> {
        // SAFETY: Annex 7.39: a planner whose every byte has a value, exclusively borrowed.
        answered(unsafe { raw::planner_remove(&mut self.raw, id) })
    }

    /// Annex 7.41 to 7.45: has a message wait behind those that wait, for a round with a slot free.
    /// The same number may wait more than once.
    ///
    /// Annex 12.29: with q others ahead it leaves no later than the (q + 1)-th round that is held.
    ///
    /// # Errors
    ///
    /// 5 if the planner is not sound; then 29 unless the number is 32,768 to 65,535
    /// ([`LEAST_MESSAGE`], [`LARGEST_MESSAGE`]) and messages are on; then 30 with 32 messages
    /// waiting ([`MOST_WAITING`]).
    ///
    /// ```
    /// use planner::{Planner, Setting, Stream};
    ///
    /// // three slots a round, of which the streams have two
    /// let setting = Setting { slots: 3, frame: 6, gap: 6, last: 0, messages: true };
    /// let mut planner = Planner::open(setting)?;
    /// planner.add(Stream { id: 1, release: 1, period: 3, deadline: 2 })?;
    ///
    /// // a remark, whose meaning is the crew's own, goes with the next round
    /// planner.send(40_000)?;
    /// let mut buffer = [0; 3];
    /// let round = planner.round(&mut buffer)?;
    /// assert_eq!((round.start, round.ids), (2, &[1, 40_000][..]));
    /// assert_eq!((round.streams(), round.messages()), (&[1][..], &[40_000][..]));
    /// # Ok::<(), planner::Refusal>(())
    /// ```
    #[inline]
    pub fn send(&mut self, number: u32) -> Result<(), Refusal> {
        // SAFETY: Annex 7.39: a planner whose every byte has a value, exclusively borrowed.
        answered(unsafe { raw::planner_send(&mut self.raw, number) })
    }

    /// Annex 7.24 to 7.33: holds the next round, and writes the ids of its streams, then the
    /// messages that fit in the slots still free (Annex 7.46), to the front of the buffer, which
    /// needs as many elements as a round has slots; [`MOST_SLOTS`] are always enough. The later ones
    /// are untouched.
    ///
    /// With no stream the round is held at last + 1 + gap, with no id; waiting messages ride in it.
    ///
    /// # Errors
    ///
    /// 5 if the planner is not sound; then 16 if the buffer has fewer than `slots` elements, even
    /// where there is nothing to write; then 17 if the start is after 1,000,000,000. Refused, it
    /// leaves planner and buffer as they were.
    #[inline]
    pub fn round<'a>(&mut self, buffer: &'a mut [u16]) -> Result<Round<'a>, Refusal> {
        // SAFETY: Annex 7.39: a planner whose every byte has a value, and a slice of that length,
        // both exclusively borrowed, so that they do not overlap and nobody else has them. The
        // pointer of an empty slice points nowhere, but is aligned and not null, and length 0 has
        // nothing read or written there.
        let held = unsafe { raw::planner_round(&mut self.raw, buffer.as_mut_ptr(), buffer.len()) };
        answered(held.answer)?;
        // Annex 7.34: the first n elements, or the whole buffer if n is above its length
        let buffer: &'a [u16] = buffer;
        let ids = buffer.get(..held.n as usize).unwrap_or(buffer);
        Ok(Round { start: held.start, ids })
    }

    /// Annex 14.1 to 14.12: checks a plan that begins at this planner: packets laid end to end, a
    /// round each, of any maker. Any bytes may be passed, and nothing of them is taken on trust.
    ///
    /// A round breaks a rule if its packet is cut short, not good, or has another number of slots
    /// (14.3); if it does not start after the round before, or starts more than gap after that one's
    /// end (14.4); if it has more stream ids than there are slots for streams (14.5); if an id is no
    /// stream's, or its packet is not released at the start or not due after it (14.6); or if after
    /// it an unserved packet of any stream is due by its end (14.7). Messages are skipped. The order
    /// of slots, free slots and which messages ride are not checked (14.14).
    ///
    /// A sound plan has no miss so far; that it can go on without one is not said (14.15).
    ///
    /// # Errors
    ///
    /// 5 if the planner is not sound, with no bytes too.
    ///
    /// ```
    /// use planner::{Planner, Setting, Stream, Verdict};
    ///
    /// let setting = Setting { slots: 2, frame: 6, gap: 6, last: 0, messages: false };
    /// let mut planner = Planner::open(setting)?;
    /// planner.add(Stream { id: 1, release: 1, period: 3, deadline: 2 })?;
    ///
    /// // two rounds of another supplier, at 2 and at 4, each with a slot for stream 1
    /// let plan = [[0, 0, 0, 2, 2, 1, 0, 1], [0, 0, 0, 4, 2, 1, 0, 1]].concat();
    /// assert_eq!(planner.check(&plan)?, Verdict::Sound);
    ///
    /// // the second at 6 instead: the packet that is due then is late
    /// let plan = [[0, 0, 0, 2, 2, 1, 0, 1], [0, 0, 0, 6, 2, 1, 0, 1]].concat();
    /// assert_eq!(planner.check(&plan)?, Verdict::Breaks { round: 2 });
    /// # Ok::<(), planner::Refusal>(())
    /// ```
    #[inline]
    pub fn check(&self, plan: &[u8]) -> Result<Verdict, Refusal> {
        // SAFETY: Annex 7.39: a planner whose every byte has a value, and a slice of that length,
        // both borrowed, so that nobody writes them meanwhile; the call only reads. The pointer of
        // an empty slice is not null, and length 0 has nothing read there.
        let verdict = unsafe { raw::planner_check(&self.raw, plan.as_ptr(), plan.len()) };
        answered(verdict.answer)?;
        Ok(match verdict.round {
            0 => Verdict::Sound,
            round => Verdict::Breaks { round },
        })
    }

    /// Annex 3.1: B, the slots of a round.
    pub fn slots(&self) -> u32 {
        self.raw.slots
    }

    /// Annex 3.1: F, the superframe.
    pub fn frame(&self) -> u32 {
        self.raw.frame
    }

    /// Annex 3.1, 4.5: G, the most units from the end of a round to the next start.
    pub fn gap(&self) -> u32 {
        self.raw.gap
    }

    /// Annex 3.1: whether messages are on. (Of a planner that is not sound, whether the number that
    /// says so is other than 0.)
    pub fn messages(&self) -> bool {
        self.raw.messages != 0
    }

    /// Annex 3.1: L, the start of the last round.
    pub fn last(&self) -> u32 {
        self.raw.last
    }

    /// Annex 3.4: the end of the last round, last + 1.
    pub fn now(&self) -> u32 {
        self.raw.last.saturating_add(1)
    }

    /// Annex 3.15: the waiting messages, in the order in which they were sent. (Of a planner that
    /// is not sound, as many of its 32 places as its count says.)
    pub fn waiting(&self) -> &[u16] {
        let all = &self.raw.waiting.numbers;
        all.get(..self.raw.waiting.count as usize).unwrap_or(all)
    }

    /// Annex 3.2, 3.3: the streams by ascending id, each with the release of its first unserved
    /// packet. (Of a planner that is not sound, as many of its 64 places as its count says.)
    pub fn streams(&self) -> impl ExactSizeIterator<Item = Stream> + Clone + '_ {
        let all = &self.raw.table.streams;
        let streams = all.get(..self.raw.table.count).unwrap_or(all).iter();
        streams.map(|s| Stream {
            id: s.id,
            release: s.release,
            period: s.period,
            deadline: s.deadline,
        })
    }
}

/// A host that takes over from another of the same kind gets a planner's bytes, whole (Annex 7.38).
///
/// Any bytes may be handed in. That is safe, since no byte of a planner is padding and every bit
/// pattern is a value, and since each of add, remove, send, round and check tests the whole planner
/// first, as it does anyway, and refuses one that is not sound with 5. So `check(&[])` tests a
/// planner and changes nothing: it is refused with 5, and of a sound planner it says that a plan of
/// no rounds is sound (Annex 14.12). 5 is no checksum: a planner that was damaged and is still sound
/// is used as it stands, and who has to find every damage keeps a checksum beside the bytes (Annex
/// 13.7).
impl Planner {
    /// Annex 7.38: the bytes, numbers in the machine's own order, for a host that takes over.
    pub fn as_bytes(&self) -> &[u8; Planner::BYTES] {
        self.raw.as_bytes()
    }

    /// Annex 7.38: the planner of these bytes, sound or not.
    ///
    /// # Errors
    ///
    /// [`Refusal::OtherVersion`] ([`check_version`]). That this version made the bytes is not
    /// tested, since nothing in them says so (Annex 13.8).
    pub fn from_bytes(bytes: &[u8; Planner::BYTES]) -> Result<Planner, Refusal> {
        Planner::from_raw(raw::Planner::from_bytes(bytes))
    }

    /// Annex 7.38: what the library sees of it.
    pub fn as_raw(&self) -> &raw::Planner {
        &self.raw
    }

    /// Annex 7.38: the planner of these fields, sound or not.
    ///
    /// # Errors
    ///
    /// [`Refusal::OtherVersion`] ([`check_version`]).
    pub fn from_raw(raw: raw::Planner) -> Result<Planner, Refusal> {
        check_version()?;
        Ok(Planner { raw })
    }
}

/// The numbers, how many messages wait and how many streams there are.
impl fmt::Debug for Planner {
    fn fmt(&self, f: &mut fmt::Formatter<'_>) -> fmt::Result {
        f.debug_struct("Planner")
            .field("slots", &self.slots())
            .field("frame", &self.frame())
            .field("gap", &self.gap())
            .field("messages", &self.messages())
            .field("last", &self.last())
            .field("waiting", &self.waiting().len())
            .field("streams", &self.streams().len())
            .finish_non_exhaustive()
    }
}
