//! The schedule packet: how a round goes on air, from a host to the heads (Annex 10.1 to 10.8).
//!
//! ```
//! use planner::packet;
//!
//! // once, where no planner is made
//! planner::check_version()?;
//!
//! // a host: the round at 2 with two slots, for the streams 1 and 2
//! let mut buffer = [0; packet::MOST_BYTES];
//! let sent = packet::write(2, 2, &[1, 2], &mut buffer)?;
//! assert_eq!(sent, [0, 0, 0, 2, 2, 2, 0, 1, 0, 2]);
//!
//! // the head of stream 2: whether it sends in this round, and in which slot
//! let packet = packet::read(sent)?;
//! assert_eq!(packet.start(), 2);
//! assert_eq!(packet.ids().position(|id| id == 2), Some(1));
//! assert_eq!(packet.messages().len(), 0);
//! # Ok::<(), planner::Refusal>(())
//! ```
//!
//! [`write()`] and [`read()`] do not test the library's version. A host that made a planner has had
//! it tested; whoever uses packets alone, as a head does, calls
//! [`check_version`](crate::check_version) once.

use crate::refusal::answered;
use crate::{raw, Refusal, LARGEST_ID, MOST_SLOTS};

/// Annex 10.2, 10.3: the bytes of the longest schedule packet, of [`MOST_SLOTS`] ids and messages.
pub const MOST_BYTES: usize = length(MOST_SLOTS);

/// Annex 10.2: where the ids begin.
const IDS_FROM: usize = 6;

/// Annex 10.2: the bytes of a schedule packet of n ids and messages.
const fn length(n: usize) -> usize {
    IDS_FROM + 2 * n
}

/// Annex 10.10: the version of the packets of the library that is linked;
/// [`check_version`](crate::check_version) compares it with this crate's.
pub fn version() -> u32 {
    // SAFETY: it takes nothing and gives a number (Annex 7.39 asks nothing of such a call).
    unsafe { raw::packet_version() }
}

/// Annex 10.4, 10.5: writes the schedule packet of these values to the front of the buffer, and
/// gives that part; the later bytes are untouched.
///
/// Annex 12.16: what a round of a planner answered, with the planner's slots, is always good.
///
/// # Errors
///
/// 27 if the values are not good (Annex 10.3): start is above 1,000,000,000, slots is not 1 to 64,
/// there are more ids than slots, or the ids are not first those of streams, 1 to 32,767 and none
/// twice, and then messages, 32,768 to 65,535, which may repeat; then 28 if the buffer is shorter
/// than the packet, which one of [`MOST_BYTES`] never is. Refused, it leaves the whole buffer.
#[inline]
pub fn write<'a>(
    start: u32,
    slots: u32,
    ids: &[u16],
    buffer: &'a mut [u8],
) -> Result<&'a [u8], Refusal> {
    let (n, room) = (ids.len(), buffer.len());
    // SAFETY: Annex 7.39: neither pointer is null, that of an empty slice neither, which points
    // nowhere, is aligned and is not read; both are slices of these lengths, of which the buffer
    // may be written; an exclusive borrow overlaps nothing, and nobody else has either meanwhile.
    let answer =
        unsafe { raw::packet_write(start, slots, ids.as_ptr(), n, buffer.as_mut_ptr(), room) };
    answered(answer)?;
    let buffer: &'a [u8] = buffer;
    // written, it is as long as it has to be, and n is at most 64
    Ok(buffer.get(..length(n)).unwrap_or(buffer))
}

/// Annex 10.6, 10.7: reads a schedule packet of just these bytes.
///
/// # Errors
///
/// 26 if there are fewer than 6 bytes, or other than 6 + 2×n of them where n is byte 5; then 27 if
/// they are not those of good values (Annex 10.3).
#[inline]
pub fn read(bytes: &[u8]) -> Result<Packet<'_>, Refusal> {
    // SAFETY: Annex 7.39: the pointer is not null, that of an empty slice neither, which points
    // nowhere and is not read; the slice's bytes can be read, and nobody writes them meanwhile.
    let header = unsafe { raw::packet_read(bytes.as_ptr(), bytes.len()) };
    answered(header.answer)?;
    let ids = bytes.get(IDS_FROM..).unwrap_or_default();
    Ok(Packet { start: header.start, slots: header.slots, ids })
}

/// Annex 10.1: a good schedule packet that was read. It borrows the bytes, so that they stay as they
/// were tested.
#[derive(Clone, Copy, Debug, PartialEq, Eq)]
pub struct Packet<'a> {
    start: u32,
    slots: u32,
    ids: &'a [u8],
}

impl<'a> Packet<'a> {
    /// Annex 10.1: the round's start.
    pub fn start(&self) -> u32 {
        self.start
    }

    /// Annex 10.1: B, the slots of a round; there may be fewer ids and messages.
    pub fn slots(&self) -> u32 {
        self.slots
    }

    /// Annex 10.8: the ids in the order of the round's slots: those of streams, then messages.
    pub fn ids(&self) -> impl ExactSizeIterator<Item = u16> + Clone + 'a {
        numbers(self.ids)
    }

    /// Annex 10.3: the ids of the streams that send, in the order of the round's slots.
    pub fn streams(&self) -> impl ExactSizeIterator<Item = u16> + Clone + 'a {
        numbers(self.parts().0)
    }

    /// Annex 10.3: the messages, in the order of the round's slots.
    pub fn messages(&self) -> impl ExactSizeIterator<Item = u16> + Clone + 'a {
        numbers(self.parts().1)
    }

    fn parts(&self) -> (&'a [u8], &'a [u8]) {
        let streams = self.ids().take_while(|id| u32::from(*id) <= LARGEST_ID).count();
        self.ids.split_at(2 * streams)
    }
}

/// Annex 10.2: two bytes a number, the most significant first.
fn numbers<'a>(bytes: &'a [u8]) -> impl ExactSizeIterator<Item = u16> + Clone + 'a {
    bytes.chunks_exact(2).map(|id| u16::from_be_bytes([id[0], id[1]]))
}
