//! What the library sees: its structs and its functions, as `planner.h`, `packets.h` and
//! `superframe.h` have them for C (Annex 7.37, 7.38, 9.6 and 10.9).
//!
//! A host needs none of this. It is for whoever hands a planner's bytes on, reads its fields, or
//! measures the calls themselves. The layout stands here and nowhere else in Rust; a compiler that
//! lays it out in another way is stopped by the assertions below.
//!
//! # Safety
//!
//! Nothing checks these declarations against the library (Annex 13.5). Whoever calls a function of
//! this module keeps Annex 7.39: no pointer is null, also where a length is 0, and each is aligned
//! for its type; each points to as many elements as are passed, which can be read, and written
//! where a call writes; a planner's memory has been written before it is lent, to `planner_open` too;
//! buffers, ids, packets and planners do not overlap; nobody else reads or writes them during a
//! call. Of values nothing is asked (Annex 7.1).

use core::mem::{align_of, offset_of, size_of, transmute};

/// Annex 3.6, 8.6: the places of a planner for records, and of its queue for entries.
pub const PLACES: usize = 64;

/// Annex 8.6: the nodes of a queue, its places and the nodes of its 480 buckets.
pub const NODES: usize = 544;

/// Annex 3.15: the places of a planner for messages that wait.
pub const MOST_WAITING: usize = 32;

/// Annex 7.38: the bytes of a planner.
pub const BYTES: usize = size_of::<Planner>();

/// Annex 3.2: a stream, with the release of its first unserved packet.
#[repr(C)]
#[derive(Clone, Copy, Debug, PartialEq, Eq)]
pub struct Stream {
    /// The id, 1 to 32,767.
    pub id: u32,
    /// P, the length from a release to the next.
    pub period: u32,
    /// D, the length from a release to the due time.
    pub deadline: u32,
    /// The release of the first unserved packet.
    pub release: u32,
}

/// Annex 3.3: the streams are those in the first `count` places, by ascending id.
#[repr(C)]
#[derive(Clone, Copy, Debug, PartialEq, Eq)]
pub struct Table {
    /// How many streams there are; a planner with more than 64 is not sound.
    pub count: usize,
    /// The places; no answer depends on those from `count` on.
    pub streams: [Stream; PLACES],
}

/// Annex 8.6: the queue of due times and releases. Its fields are for the library alone.
#[repr(C)]
#[derive(Clone, Copy, Debug, PartialEq, Eq)]
pub struct Queue {
    /// The id at each place, 0 where it is free.
    pub ids: [u16; PLACES],
    /// The key at each place: the due time.
    pub keys: [u32; PLACES],
    /// The node after each node.
    pub next: [u16; NODES],
    /// The node before each node.
    pub prev: [u16; NODES],
    /// The release at each place.
    pub releases: [u32; PLACES],
}

/// Annex 3.15: the waiting messages are those in the first `count` places, in the order in which
/// they were sent.
#[repr(C)]
#[derive(Clone, Copy, Debug, PartialEq, Eq)]
pub struct Waiting {
    /// How many messages wait; a planner with more than 32 is not sound.
    pub count: u32,
    /// The places; no answer depends on those from `count` on.
    pub numbers: [u16; MOST_WAITING],
}

/// Annex 3.1, 3.5: a planner. No byte of it is padding, and every bit pattern is a value.
#[repr(C)]
#[derive(Clone, Copy, Debug, PartialEq, Eq)]
pub struct Planner {
    /// B, the slots of a round.
    pub slots: u32,
    /// F, the superframe.
    pub frame: u32,
    /// G, the gap.
    pub gap: u32,
    /// 1 with messages on, 0 with them off; a planner with another number is not sound.
    pub messages: u32,
    /// L, the start of the last round.
    pub last: u32,
    /// The waiting messages.
    pub waiting: Waiting,
    /// The streams.
    pub table: Table,
    /// The queue that files them.
    pub queue: Queue,
}

/// Annex 7.28, 7.31: what a round answers: its start and the count of ids and messages together,
/// both 0 if refused.
#[repr(C)]
#[derive(Clone, Copy, Debug, PartialEq, Eq)]
pub struct Held {
    /// 0, or the number of a refusal.
    pub answer: u32,
    /// The start.
    pub start: u32,
    /// How many numbers stand at the buffer's front, ids and then messages.
    pub n: u32,
}

/// Annex 14.12: what a check of a plan answers: 0 and 0 of a sound plan; 0 and the number, from 1, of
/// the first round that breaks a rule; 5 and 0 if the planner is not sound.
#[repr(C)]
#[derive(Clone, Copy, Debug, PartialEq, Eq)]
pub struct Verdict {
    /// 0, or 5.
    pub answer: u32,
    /// The round, from 1; 0 for none.
    pub round: u32,
}

/// Annex 10.7: what a read gives: start, B and n, all 0 if refused.
#[repr(C)]
#[derive(Clone, Copy, Debug, PartialEq, Eq)]
pub struct Header {
    /// 0, or the number of a refusal.
    pub answer: u32,
    /// The start.
    pub start: u32,
    /// B, the slots of a round.
    pub slots: u32,
    /// How many numbers there are, ids and then messages.
    pub n: u32,
}

impl Planner {
    /// Zeros throughout: what may be lent to [`planner_open`]. It is not sound (Annex 3.6).
    pub const ZEROS: Planner = Planner::from_bytes(&[0; BYTES]);

    /// Annex 7.38: the bytes, numbers in the machine's own order.
    pub const fn as_bytes(&self) -> &[u8; BYTES] {
        // SAFETY: a planner is BYTES bytes, each with a value, since none is padding; a byte needs
        // no alignment.
        unsafe { &*(self as *const Planner).cast::<[u8; BYTES]>() }
    }

    /// The planner of these bytes, whatever they are: every field is a number, or numbers, and
    /// every bit pattern is one.
    pub const fn from_bytes(bytes: &[u8; BYTES]) -> Planner {
        // SAFETY: both have BYTES bytes, and a field may have any value.
        unsafe { transmute::<[u8; BYTES], Planner>(*bytes) }
    }
}

// Annex 7.38: the layout.
const _: () = {
    assert!(size_of::<usize>() == 8);
    assert!(size_of::<Stream>() == 16);
    assert!(offset_of!(Stream, id) == 0 && offset_of!(Stream, period) == 4);
    assert!(offset_of!(Stream, deadline) == 8 && offset_of!(Stream, release) == 12);
    assert!(size_of::<Table>() == 1032);
    assert!(offset_of!(Table, count) == 0 && offset_of!(Table, streams) == 8);
    assert!(size_of::<Queue>() == 2816);
    assert!(offset_of!(Queue, ids) == 0 && offset_of!(Queue, keys) == 128);
    assert!(offset_of!(Queue, next) == 384 && offset_of!(Queue, prev) == 1472);
    assert!(offset_of!(Queue, releases) == 2560);
    assert!(size_of::<Waiting>() == 68);
    assert!(offset_of!(Waiting, count) == 0 && offset_of!(Waiting, numbers) == 4);
    assert!(size_of::<Planner>() == 3936 && align_of::<Planner>() == 8);
    assert!(offset_of!(Planner, slots) == 0 && offset_of!(Planner, frame) == 4);
    assert!(offset_of!(Planner, gap) == 8 && offset_of!(Planner, messages) == 12);
    assert!(offset_of!(Planner, last) == 16 && offset_of!(Planner, waiting) == 20);
    assert!(offset_of!(Planner, table) == 88 && offset_of!(Planner, queue) == 1120);
    assert!(size_of::<Held>() == 12 && offset_of!(Held, answer) == 0);
    assert!(offset_of!(Held, start) == 4 && offset_of!(Held, n) == 8);
    assert!(size_of::<Verdict>() == 8 && offset_of!(Verdict, answer) == 0);
    assert!(offset_of!(Verdict, round) == 4);
    assert!(size_of::<Header>() == 16 && offset_of!(Header, answer) == 0);
    assert!(offset_of!(Header, start) == 4 && offset_of!(Header, slots) == 8);
    assert!(offset_of!(Header, n) == 12);
};

// No byte is padding: each struct is as large as its fields together.
const _: () = {
    assert!(size_of::<Stream>() == 4 * size_of::<u32>());
    assert!(size_of::<Table>() == size_of::<usize>() + PLACES * size_of::<Stream>());
    let (halves, words) = (PLACES + 2 * NODES, 2 * PLACES);
    assert!(size_of::<Queue>() == halves * size_of::<u16>() + words * size_of::<u32>());
    assert!(size_of::<Waiting>() == size_of::<u32>() + MOST_WAITING * size_of::<u16>());
    let lists = size_of::<Waiting>() + size_of::<Table>() + size_of::<Queue>();
    assert!(size_of::<Planner>() == 5 * size_of::<u32>() + lists);
};

extern "C" {
    /// Annex 7.5 to 7.9: opens the planner, whatever its content, with messages off for 0 and on
    /// for any other number; refuses 1 to 4.
    pub fn planner_open(
        p: *mut Planner,
        slots: u32,
        frame: u32,
        gap: u32,
        last: u32,
        messages: u32,
    ) -> u32;

    /// Annex 7.10 to 7.20: adds a stream; refuses 5 to 13.
    pub fn planner_add(p: *mut Planner, id: u32, release: u32, period: u32, deadline: u32) -> u32;

    /// Annex 7.22, 7.23: takes a stream out; refuses 5 and 14.
    pub fn planner_remove(p: *mut Planner, id: u32) -> u32;

    /// Annex 7.41 to 7.45: has a message wait; refuses 5, 29 and 30.
    pub fn planner_send(p: *mut Planner, number: u32) -> u32;

    /// Annex 7.24 to 7.33: holds the next round; refuses 5, 16 and 17.
    pub fn planner_round(p: *mut Planner, buffer: *mut u16, length: usize) -> Held;

    /// Annex 7.36: how many elements of the buffer a round that answered n has filled.
    pub fn planner_filled(buffer: *const u16, length: usize, n: u32) -> usize;

    /// Annex 14.1 to 14.12: checks a plan, packets laid end to end, from this planner on; refuses 5.
    /// It stores nothing in planner or plan.
    pub fn planner_check(p: *const Planner, plan: *const u8, length: usize) -> Verdict;

    /// Annex 7.40: the version of the planner's calls.
    pub fn planner_version() -> u32;

    /// Annex 10.4, 10.5: writes a schedule packet; refuses 27 and 28.
    pub fn packet_write(
        start: u32,
        slots: u32,
        ids: *const u16,
        n: usize,
        packet: *mut u8,
        length: usize,
    ) -> u32;

    /// Annex 10.6, 10.7: reads a schedule packet; refuses 26 and 27.
    pub fn packet_read(packet: *const u8, length: usize) -> Header;

    /// Annex 10.8: how many bytes the ids take, from byte 6 on; 0 where the packet is refused.
    pub fn packet_ids_length(packet: *const u8, length: usize) -> usize;

    /// Annex 10.10: the version of the packet calls.
    pub fn packet_version() -> u32;

    /// Annex 9.1 to 9.6: the superframe of these periods: the answer times 65,536, plus the value.
    pub fn superframe(periods: *const u8, count: usize) -> u32;
}
